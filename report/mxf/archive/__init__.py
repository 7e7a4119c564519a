"""The database of an archive of recordings. The program stands in ../../mxf_archive."""
