/** What map libraries take, made of a stream of blobs. The libraries themselves are not part of this package. */
import {geometries, read} from '../../polytwkb.js';

const LINESTRING = 2;

/**
 * The `data` of a PathLayer of deck.gl (with `_pathType: 'open'` and `positionFormat: 'XY'`), of a stream of lines. The
 * coordinates and the places at which lines begin are the arrays of `read`: nothing is copied.
 */
export function deckPaths(blobs) {
    const {kinds, offsets, xy} = read(blobs);
    const other = kinds.findIndex(kind => kind !== LINESTRING);
    if (other >= 0) throw new RangeError(`row ${other} is no linestring`);
    return {length: kinds.length, startIndices: offsets, attributes: {getPath: {value: xy, size: 2}}};
}

/**
 * A FeatureCollection of GeoJSON, of a stream or of a column of a database; `propertiesOf` gives the properties of the
 * feature at a place. It is the `data` of a source of MapLibre, and `new GeoJSON().readFeatures(it)` of OpenLayers
 * takes it.
 */
export function featureCollection(blobs, propertiesOf = () => ({})) {
    const features =
        geometries(blobs).map((geometry, at) => ({type: 'Feature', properties: propertiesOf(at), geometry}));
    return {type: 'FeatureCollection', features};
}

/** A source of MapLibre: `map.addSource('routes', mapLibreSource(blobs))`. */
export const mapLibreSource = (blobs, propertiesOf) =>
    ({type: 'geojson', data: featureCollection(blobs, propertiesOf)});
