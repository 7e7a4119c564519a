"""Pages of recordings, for people to look at. The program stands in ../../mxf_report."""
