"""Labels of sound codings, by their last eight bytes."""
from __future__ import annotations

from mxf.labels.rows import FILES, READER, STANDARD, Row

SOUNDS = (
    Row("0402", "sound coding", STANDARD),
    Row("04020201", "uncompressed sound", READER),
    Row("0402020100000000", "PCM", READER),
    Row("040202017e000000", "PCM, high byte first", FILES),
    Row("040202017f000000", "PCM", FILES),
    Row("04020202", "compressed sound", STANDARD),
    Row("0402020203010100", "A-law", FILES),
    Row("0402020203020100", "AC-3", FILES),
    Row("0402020203020500", "MPEG audio", FILES),
    Row("0402020203021c00", "Dolby E", STANDARD),
    Row("040202020303", "AAC", READER),
    Row("0402020203030100", "AAC", READER),
)
