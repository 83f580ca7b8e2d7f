# The browser that draws and tests pages: sourced by tools/show_pictures.sh and tests/show.sh. `browser` is the first
# Chromium by its usual names, or empty where the machine has none.
browser=
for name in chromium chromium-browser google-chrome; do
    command -v "$name" >/dev/null && browser=$name && break
done
