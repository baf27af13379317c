#!/usr/bin/env bash
# Looks at the pages of all examples in a headless browser, where one is installed, and says so where none is: at the width of
# a phone and of a desk. The browser's log must have no message, no page may be wider than its window, and every formula must take
# room. A page with a fault of each of these kinds is looked at too, and must be found out. One page is printed on paper and two
# pictures are taken; with a folder as argument they are kept there.
set -euo pipefail
cd "$(dirname "$0")/.."
browser=
for name in chromium chromium-browser google-chrome google-chrome-stable; do
    if command -v "$name" > /dev/null; then
        browser=$name
        break
    fi
done
if [ -z "$browser" ]; then
    echo "page-test.sh: no browser is installed (chromium or google-chrome), so no page was looked at"
    exit 0
fi
out=$(mktemp -d)
trap 'rm -r "$out"' EXIT
kept=${1:-$out}
mkdir -p "$kept"

# browse WIDTH HEIGHT URL OPTION..: has the browser load a page; its log goes to standard error.
browse() {
    local width=$1 height=$2 url=$3
    shift 3
    timeout 300 "$browser" --headless=new --no-sandbox --disable-gpu --hide-scrollbars --disable-dev-shm-usage --no-first-run --user-data-dir="$out/profile" \
        --allow-file-access-from-files --enable-logging=stderr --force-device-scale-factor=1 --window-size="$width,$height" "$@" "$url"
}

# frame PAGE WIDTH HEIGHT: a window of that width around a page, since a browser's own has a least width.
frame() {
    printf '<iframe src="%s" style="width:%dpx;height:%dpx;border:0"></iframe>\n' "$@"
}

# look PAGE..: what is wrong with the pages at either width; nothing where they are good.
look() {
    {
        echo '<!DOCTYPE html><html lang="en"><meta charset="utf-8"><title>frames</title><body>'
        for page; do
            frame "$page" 360 800
            frame "$page" 1200 800
        done
        cat << 'HTML'
<script>
addEventListener("load", () => {
  const frames = [...document.querySelectorAll("iframe")];
  const takesRoom = box => box.width > 0 && box.height > 0;
  const isGood = frame => {
    const page = frame.contentDocument, formulas = [...page.querySelectorAll("math")];
    const room = formulas.length > 0 && formulas.every(formula => takesRoom(formula.getBoundingClientRect()));
    return (room || page.querySelector("main.wide")) && page.documentElement.scrollWidth <= frame.clientWidth;
  };
  const bad = frames.filter(frame => !isGood(frame)).map(frame => frame.getAttribute("src") + " at " + frame.clientWidth);
  document.body.dataset.seen = frames.length + " seen" + bad.map(name => ", not good: " + name).join("");
});
</script></body></html>
HTML
    } > "$out/frames.html"
    browse 1400 2000 "file://$out/frames.html" --virtual-time-budget=60000 --dump-dom > "$out/dom" 2> "$out/log"
    grep 'CONSOLE' "$out/log" || true
    grep -q "data-seen=\"$((2 * $#)) seen\"" "$out/dom" || grep -o 'data-seen="[^"]*"' "$out/dom" || echo "the pages were not loaded"
}

# picture PAGE WIDTH HEIGHT FILE: how a page looks at that width.
picture() {
    { echo '<!DOCTYPE html><html lang="en"><meta charset="utf-8"><title>frame</title><body style="margin:0">' && frame "$1" "$2" "$3"; } > "$out/frame.html"
    browse "$2" "$3" "file://$out/frame.html" --screenshot="$4" > /dev/null 2> "$out/log"
    [ "$(head -c 4 "$4" | tail -c 3)" = PNG ] || fault "there is no picture of $1 at $2"
}

status=0
fault() {
    echo "page-test.sh: $1"
    status=1
}

# Some examples are damaged, so that not all files are accepted.
cargo run --release --offline --quiet --manifest-path bindings/rust/Cargo.toml --bin page -- --html "$out/pages" examples > /dev/null || [ $? -eq 1 ]
mapfile -t pages < <(cd "$out" && find pages -name '*.html' | sort)
[ "${#pages[@]}" -gt 60 ] || fault "there are ${#pages[@]} pages"
found=$(look "${pages[@]}")
[ -z "$found" ] || fault "$found"

# What must be found out: something that is loaded, something too wide, a formula without room.
good=$out/pages/born-rule.html
sed 's|</main>|<p><img src="none.png" alt=""/></p></main>|' "$good" > "$out/loads.html"
sed 's|</main>|<p style="width:2000px">wide</p></main>|' "$good" > "$out/wide.html"
sed 's|<math>|<math style="display:none">|' "$good" > "$out/flat.html"
for name in loads wide flat; do
    [ -n "$(look "$name.html")" ] || fault "a page that is bad ($name) was not found out"
done

picture pages/born-rule.html 360 1500 "$kept/page-360.png"
picture pages/born-rule.html 900 1250 "$kept/page-900.png"
browse 1200 1000 "file://$out/pages/bell-state-norm.html" --no-pdf-header-footer --print-to-pdf="$kept/page.pdf" > /dev/null 2> "$out/log"
[ "$(head -c 4 "$kept/page.pdf")" = %PDF ] || fault "there is nothing on paper"
if [ "$status" -eq 0 ]; then
    echo "${#pages[@]} pages looked at in $browser, at 360 and at 1,200 pixels: nothing in its log, and nothing wider than the window"
fi
exit "$status"
