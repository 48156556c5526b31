"""The parts of `tools/osm2map`: from an extract of OpenStreetMap or an answer of Overpass to a road map, in the order of `command`."""
