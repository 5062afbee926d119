"""From an OpenStreetMap extract to a folder."""
