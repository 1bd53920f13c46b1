#!/usr/bin/env bash
# Makes a toolchain folder like the kit's whose clang keeps what the kit's compiler hands to it, and then runs the
# kit's:
#
#   packaging/wasm/keep_module.sh TOOLCHAIN MODULE
#
# A build with TOOLCHAIN in place of the kit's folder leaves in the file MODULE the one LLVM module of a library. If
# there is a second one, a file MODULE.many says so.
set -euo pipefail
folder=$(realpath -m "$1")
module=$(realpath -m "$2")
mkdir -p "$(dirname "$module")"
rm -f "$module" "$module.many"
kit=$(dirname "$(rt doc)")/toolchain
mkdir -p "$folder/bin"
for file in "$kit"/* "$kit"/bin/*; do
  [ "$file" = "$kit/bin" ] || ln -s "$file" "$folder/${file#"$kit/"}"
done
rm "$folder/bin/clang"
cat > "$folder/bin/clang" << END
#!/bin/sh
for word in "\$@"; do
  case \$word in
    *.bc) if [ -e '$module' ]; then touch '$module.many'; else cp "\$word" '$module'; fi ;;
  esac
done 2> /dev/null
exec '$kit/bin/clang' "\$@"
END
chmod +x "$folder/bin/clang"
