# Sets `program` to the program that ./mkdemux runs, so that no shell stands before it. It is sourced, and `here` is the folder of bench/.
"$here/../mkdemux" --version > /dev/null || exit 3
program=$here/../dist/mkdemux
[ "$("$here/../dist/digest.sh")" = "$(cat "$here/../dist/sources")" ] || program=$here/../crates/mkdemux/out/stamped/mkdemux
