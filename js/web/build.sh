#!/bin/sh
# Makes the page in one file, of the package that js/build.cjs made in a directory.
#
#   js/web/build.sh PACKAGE FILE
set -eu
web=$(dirname -- "$(readlink -f -- "$0")")
package=$1 file=$2
sed '/^module.exports = /d' "$package/index.cjs" > "$file.module"
sed -e "/^\/\* MODULE \*\/\$/{r $file.module
d}" -e "/^\/\* PAGE \*\/\$/{r $web/page.js
d}" "$web/page.html" > "$file"
rm "$file.module"
