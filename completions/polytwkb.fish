# Completion of polytwkb for fish. scripts/completions.py compares it with help.

complete -c polytwkb -f

complete -c polytwkb -n __fish_use_subcommand -a pack -d 'Reads a table and writes a stream of blobs, one for each geometry'
complete -c polytwkb -n __fish_use_subcommand -a unpack -d 'Reads a stream of blobs and writes a table, the header line first'
complete -c polytwkb -n __fish_use_subcommand -a show -d 'Reads a stream of blobs and writes a line for each TWKB header in it'
complete -c polytwkb -n __fish_use_subcommand -s h -l help -d 'Print help'
complete -c polytwkb -n __fish_use_subcommand -s V -l version -d 'Print version'

complete -c polytwkb -n '__fish_seen_subcommand_from pack' -F
complete -c polytwkb -n '__fish_seen_subcommand_from pack' -l max-nest -x -a '(seq 0 32)' -d 'How many collections a geometry may be in'
complete -c polytwkb -n '__fish_seen_subcommand_from pack' -l style -x -a 'full plain' -d 'full: blobs with sizes and boxes; plain: without'
complete -c polytwkb -n '__fish_seen_subcommand_from pack' -l column -x -d 'Packs this column of a CSV, in place of a table'
complete -c polytwkb -n '__fish_seen_subcommand_from pack' -l precision -x -a '(seq -8 7)' -d 'Decimals of the coordinates; --column asks for it'
complete -c polytwkb -n '__fish_seen_subcommand_from pack' -l ids -x -d 'Packs the lines of the column as one multilinestring, with the ids of this column'
complete -c polytwkb -n '__fish_seen_subcommand_from pack' -l hex -d 'Writes the CSV again, with hexadecimal digits of blobs in the column, after \x'
complete -c polytwkb -n '__fish_seen_subcommand_from pack' -l hex=bare -d 'The same, without \x before the digits'
complete -c polytwkb -n '__fish_seen_subcommand_from pack' -l null -x -d 'A word for a missing value in the column; may be given again'
complete -c polytwkb -n '__fish_seen_subcommand_from pack' -l delimiter -x -d 'What is between the fields of the CSV: a character, or tab'
complete -c polytwkb -n '__fish_seen_subcommand_from pack' -s o -l output -r -F -d 'The file to write, whole or not at all'
complete -c polytwkb -n '__fish_seen_subcommand_from pack' -s h -l help -d 'Print help'

complete -c polytwkb -n '__fish_seen_subcommand_from unpack' -F
complete -c polytwkb -n '__fish_seen_subcommand_from unpack' -l max-nest -x -a '(seq 0 32)' -d 'How many collections a geometry may be in'
complete -c polytwkb -n '__fish_seen_subcommand_from unpack' -l column -x -d 'A CSV with this one column of polylines, in place of the table'
complete -c polytwkb -n '__fish_seen_subcommand_from unpack' -l delimiter -x -d 'What is between the fields of the CSV: a character, or tab'
complete -c polytwkb -n '__fish_seen_subcommand_from unpack' -l hex -d 'Reads a CSV with hexadecimal digits of blobs in the column, and writes it with polylines'
complete -c polytwkb -n '__fish_seen_subcommand_from unpack' -l hex=bare -d 'The same: there may be \x before the digits, or not'
complete -c polytwkb -n '__fish_seen_subcommand_from unpack' -l geojson -d 'A line of GeoJSON for each geometry, in place of the table'
complete -c polytwkb -n '__fish_seen_subcommand_from unpack' -l collection -d 'With --geojson: one FeatureCollection, a feature for each geometry, in place of the lines'
complete -c polytwkb -n '__fish_seen_subcommand_from unpack' -s o -l output -r -F -d 'The file to write, whole or not at all'
complete -c polytwkb -n '__fish_seen_subcommand_from unpack' -s h -l help -d 'Print help'

complete -c polytwkb -n '__fish_seen_subcommand_from show' -F
complete -c polytwkb -n '__fish_seen_subcommand_from show' -l max-nest -x -a '(seq 0 32)' -d 'How many collections a geometry may be in'
complete -c polytwkb -n '__fish_seen_subcommand_from show' -s o -l output -r -F -d 'The file to write, whole or not at all'
complete -c polytwkb -n '__fish_seen_subcommand_from show' -s h -l help -d 'Print help'
