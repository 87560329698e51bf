# The common parts of all pictures: texts, the two sets of colours, and the head of a picture.

function escape(text) {
  gsub(/&/, "\\&amp;", text)
  gsub(/</, "\\&lt;", text)
  gsub(/>/, "\\&gt;", text)
  return text
}

# a set of colours; there are two, the second for readers who prefer a dark page
function colours(back, ink, soft, faint, own, carry, sleep, post, grant) {
  printf ".back{fill:%s}.ink{fill:%s}.soft{fill:%s}.halo{stroke:%s}", back, ink, soft, back
  printf ".box{fill:%s;stroke:%s}.plain{stroke:%s}.plainhead{fill:%s}", back, soft, soft, soft
  printf ".lane{stroke:%s}.rule{stroke:%s}.call{stroke:%s}", faint, faint, soft
  printf ".own{fill:%s}.stripe{stroke:%s}.edge{stroke:%s}.asleep{stroke:%s}", own, carry, carry, sleep
  printf ".post{stroke:%s}.grant{stroke:%s}.posthead{fill:%s}.granthead{fill:%s}", post, grant, post, grant
  printf ".mark{fill:%s;stroke:%s}.hollow{fill:%s;stroke:%s}.cross{stroke:%s}", ink, back, back, ink, post
}

function label(x, y, class, anchor, text) {
  printf "<text x=\"%d\" y=\"%d\" class=\"%s\"%s>%s</text>\n", x, y, class, anchor == "" ? "" : " text-anchor=\"" anchor "\"", text
}

# the colours of marks and layers, which only the pictures with large letters have
function further_colours(ink, blue, orange, green, violet, red, proved, tested, trusted, edge) {
  printf ".first{fill:%s}.second{stroke:%s}.third{fill:%s}.fourth{fill:%s}.fifth{fill:%s}.sixth{stroke:%s}.one{stroke:%s}", blue, ink, orange, green, violet, red, ink
  printf ".proved{fill:%s;stroke:%s}.tested{fill:%s;stroke:%s}.trusted{fill:%s;stroke:%s}", proved, green, tested, orange, trusted, edge
}

# prints the start of a picture of this size, up to the styles that all pictures have; `letters` is the height of its letters
function start_picture(title, width, height, letters) {
  printf "<svg xmlns=\"http://www.w3.org/2000/svg\" viewBox=\"0 0 %d %d\" width=\"%d\" height=\"%d\" role=\"img\">\n", width, height, width, height
  printf "<title>%s</title>\n<style>\n", escape(title)
  printf "text{font:%dpx 'DejaVu Sans',Verdana,Helvetica,Arial,sans-serif}\n", letters
  printf ".title{font-size:%dpx;font-weight:bold}.bold{font-weight:bold}.slant{font-style:italic}\n", letters + 3
  print ".halo{stroke-width:4px;stroke-linejoin:round;paint-order:stroke}"
  print ".lane{stroke-width:1}.rule{stroke-width:1}.call{stroke-width:2}.edge{stroke-width:1}"
  print ".asleep{stroke-width:2.5;stroke-dasharray:4 4;fill:none}.stripe{stroke-width:4}"
  print ".arrow{stroke-width:2;fill:none}.cross{stroke-width:2;fill:none}.mark,.hollow,.box{stroke-width:1.5}"
}

function light_colours() {
  colours("#ffffff", "#1f2328", "#59636e", "#d1d9e0", "#2f6fdb", "#c25a00", "#8250df", "#c2255c", "#1a7f37")
}

function dark_colours() {
  colours("#0d1117", "#f0f6fc", "#9aa4af", "#3d444d", "#4493f8", "#f0883e", "#b690ff", "#ff7b9c", "#3fb950")
}

# prints the end of the styles, the arrow heads and the background
function end_styles(width, height) {
  print "}\n</style>"
  print "<defs><pattern id=\"stripes\" width=\"8\" height=\"8\" patternUnits=\"userSpaceOnUse\" patternTransform=\"rotate(45)\"><path d=\"M0 0V8\" class=\"stripe\"/></pattern>"
  print "<marker id=\"posthead\" viewBox=\"0 0 8 8\" refX=\"7\" refY=\"4\" markerWidth=\"9\" markerHeight=\"9\" markerUnits=\"userSpaceOnUse\" orient=\"auto\"><path d=\"M0 0L8 4L0 8z\" class=\"posthead\"/></marker>"
  print "<marker id=\"granthead\" viewBox=\"0 0 8 8\" refX=\"7\" refY=\"4\" markerWidth=\"9\" markerHeight=\"9\" markerUnits=\"userSpaceOnUse\" orient=\"auto\"><path d=\"M0 0L8 4L0 8z\" class=\"granthead\"/></marker>"
  print "<marker id=\"plainhead\" viewBox=\"0 0 8 8\" refX=\"7\" refY=\"4\" markerWidth=\"9\" markerHeight=\"9\" markerUnits=\"userSpaceOnUse\" orient=\"auto\"><path d=\"M0 0L8 4L0 8z\" class=\"plainhead\"/></marker></defs>"
  printf "<rect width=\"%d\" height=\"%d\" class=\"back\"/>\n", width, height
}

# prints the start of a picture of this size, with its styles and its background
function open_picture(title, width, height) {
  start_picture(title, width, height, 12)
  light_colours()
  printf "\n@media (prefers-color-scheme:dark){"
  dark_colours()
  end_styles(width, height)
}

# the same with large letters and further colours. Such a picture is 640 wide: shown at 450 pixels its letters have 11
function open_large_picture(title, height) {
  start_picture(title, 640, height, 16)
  print ".second,.sixth{fill:none;stroke-width:2}.one{stroke-width:2}.proved,.tested,.trusted{stroke-width:1.5}"
  light_colours()
  further_colours("#1f2328", "#2f6fdb", "#b35900", "#1a7f37", "#8250df", "#c2255c", "#dafbe1", "#fff3d6", "#eaeef2", "#59636e")
  printf "\n@media (prefers-color-scheme:dark){"
  dark_colours()
  further_colours("#f0f6fc", "#4493f8", "#f0883e", "#3fb950", "#b690ff", "#ff7b9c", "#12301d", "#3a2a05", "#262c36", "#9aa4af")
  end_styles(640, height)
  label(16, 28, "ink title", "", escape(title))
}

# about how wide a text is in large letters, in the widest of the fonts
function width_of(text,    i, letter, width) {
  for (i = 1; i <= length(text); i++) {
    letter = substr(text, i, 1)
    width += letter ~ /[ijl.,:;'|!]/ ? 5 : letter ~ /[ frt()]/ ? 6.2 : letter ~ /[mwMW%]/ ? 15 : letter ~ /[A-Z_]/ ? 11 : 9.9
  }
  return width
}
