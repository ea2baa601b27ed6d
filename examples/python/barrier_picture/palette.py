"""Colours.  Levels go from light to dark, so that they differ in grey too."""
LEVEL = {1: "#fbd87f", 2: "#f5aa4f", 3: "#e5763a", 4: "#bf4545", 5: "#862f60", 6: "#452063"}
NONE = "#9aa5b1"  # a hazard that nobody reaches
INK, QUIET, FAINT = "#1f2933", "#52606d", "#cbd2d9"
ROAD, VERGE = "#dde2e7", "#f3f6ec"
BARRIER = "#0f4c81"
ZONE = "#b84e12"
STRETCH, STRETCH_EDGE = "#d3e9f5", "#2b7a9b"  # what a withdrawal may alter
LEADER = "#7b8794"
HATCH = (
    '<pattern id="over" width="3" height="3" patternUnits="userSpaceOnUse" '
    'patternTransform="rotate(45)"><rect width="3" height="3" fill="#ffffff"/>'
    '<rect width="1.2" height="3" fill="#3e4c59"/></pattern>'
)
