/** Fetches the stream that it is told, and gives its geometries as their bytes come: the page goes on meanwhile. */
import {Refused, load, stream} from '../../polytwkb.js';

onmessage = async ({data: url}) => {
    try {
        await load();
        for await (const geometries of stream(fetch(url), {gives: 'geometries'})) postMessage({geometries});
        postMessage({ended: true});
    } catch (fault) {
        postMessage({fault: fault instanceof Refused ? `refused: ${fault.message}` : String(fault)});
    }
};
