"""The parts of mxf_fetch, which gets of a recording the ranges that mxf_tool orders."""
