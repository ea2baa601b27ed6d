"""Pictures of jobs: both sides of a road, drawn from what the engine says."""
from .draw import picture
from .dxf import dxf
from .scene import Scene, scene_of
from .sheets import SHEETS_MAX, parts_of, sheets
from .withdrawal import hazard_called, sentences

__all__ = ["SHEETS_MAX", "Scene", "dxf", "hazard_called", "parts_of", "picture", "scene_of",
           "sentences", "sheets"]
