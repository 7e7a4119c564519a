"""Labels of essence containers, of ST 379 and its mappings, by their last eight bytes."""
from __future__ import annotations

from mxf.labels.rows import BOTH, FILES, READER, STANDARD, WRITTEN, Row

# Operational patterns that mxf_tool has no word for, of ST 390.
PATTERNS = (Row("0d01020110??????", "OP-Atom", WRITTEN),)

CONTAINERS = (
    Row("0d010301", "generic container", STANDARD),
    # ST 386: D-10.
    Row("0d0103010201", "D-10", FILES),
    Row("0d01030102010101", "D-10 50 Mb/s 625 lines, frame wrapped", BOTH),
    Row("0d01030102010201", "D-10 50 Mb/s 525 lines, frame wrapped", FILES),
    Row("0d01030102010301", "D-10 40 Mb/s 625 lines, frame wrapped", BOTH),
    Row("0d01030102010401", "D-10 40 Mb/s 525 lines, frame wrapped", FILES),
    Row("0d01030102010501", "D-10 30 Mb/s 625 lines, frame wrapped", BOTH),
    Row("0d01030102010601", "D-10 30 Mb/s 525 lines, frame wrapped", BOTH),
    # ST 383: DV.
    Row("0d0103010202", "DV", FILES),
    Row("0d01030102020101", "DV 525 lines, frame wrapped", STANDARD),
    Row("0d01030102020102", "DV 525 lines, clip wrapped", STANDARD),
    Row("0d01030102020201", "DV 625 lines, frame wrapped", BOTH),
    Row("0d01030102020202", "DV 625 lines, clip wrapped", STANDARD),
    Row("0d01030102024001", "DVCPRO 525 lines, frame wrapped", BOTH),
    Row("0d01030102024002", "DVCPRO 525 lines, clip wrapped", STANDARD),
    Row("0d01030102024101", "DVCPRO 625 lines, frame wrapped", WRITTEN),
    Row("0d01030102024102", "DVCPRO 625 lines, clip wrapped", STANDARD),
    Row("0d01030102025001", "DVCPRO50 525 lines, frame wrapped", WRITTEN),
    Row("0d01030102025002", "DVCPRO50 525 lines, clip wrapped", STANDARD),
    Row("0d01030102025101", "DVCPRO50 625 lines, frame wrapped", BOTH),
    Row("0d01030102025102", "DVCPRO50 625 lines, clip wrapped", STANDARD),
    Row("0d01030102026001", "DVCPRO HD 1080i 60, frame wrapped", WRITTEN),
    Row("0d01030102026002", "DVCPRO HD 1080i 60, clip wrapped", STANDARD),
    Row("0d01030102026101", "DVCPRO HD 1080i 50, frame wrapped", BOTH),
    Row("0d01030102026102", "DVCPRO HD 1080i 50, clip wrapped", STANDARD),
    Row("0d01030102026201", "DVCPRO HD 720p 60, frame wrapped", WRITTEN),
    Row("0d01030102026202", "DVCPRO HD 720p 60, clip wrapped", STANDARD),
    Row("0d01030102026301", "DVCPRO HD 720p 50, frame wrapped", BOTH),
    Row("0d01030102026302", "DVCPRO HD 720p 50, clip wrapped", STANDARD),
    Row("0d01030102027f01", "DV of any kind, frame wrapped", FILES),
    Row("0d01030102027f02", "DV of any kind, clip wrapped", STANDARD),
    # ST 387: D-11.
    Row("0d0103010203", "D-11", STANDARD),
    # ST 381-1 and ST 381-2: MPEG streams. Byte 15 is the number of the stream.
    Row("0d0103010204", "MPEG stream", FILES),
    Row("0d010301020440", "MPEG audio stream", FILES),
    Row("0d01030102044001", "MPEG audio stream, frame wrapped", FILES),
    Row("0d010301020440" + "02", "MPEG audio stream, clip wrapped", STANDARD),
    Row("0d01030102044?01", "MPEG audio stream, frame wrapped", STANDARD),
    Row("0d01030102045?01", "MPEG audio stream, frame wrapped", STANDARD),
    Row("0d01030102046001", "MPEG video stream, frame wrapped", BOTH),
    Row("0d01030102046002", "MPEG video stream, clip wrapped", STANDARD),
    Row("0d01030102046?01", "MPEG video stream, frame wrapped", STANDARD),
    Row("0d01030102046?02", "MPEG video stream, clip wrapped", STANDARD),
    Row("0d0103010207", "MPEG packetized stream", STANDARD),
    Row("0d0103010208", "MPEG program stream", STANDARD),
    Row("0d0103010209", "MPEG transport stream", STANDARD),
    # ST 384: uncompressed pictures.
    Row("0d0103010205", "uncompressed pictures", FILES),
    Row("0d01030102057f01", "uncompressed pictures, frame wrapped", FILES),
    Row("0d01030102057f02", "uncompressed pictures, clip wrapped", STANDARD),
    Row("0d010301020500??", "uncompressed pictures", READER),
    # ST 382: AES3 and BWF sound.
    Row("0d0103010206", "BWF or AES3 sound", FILES),
    Row("0d010301020601??", "BWF sound, frame wrapped", BOTH),
    Row("0d010301020602??", "BWF sound, clip wrapped", FILES),
    Row("0d010301020603??", "AES3 sound, frame wrapped", BOTH),
    Row("0d010301020604??", "AES3 sound, clip wrapped", STANDARD),
    Row("0d010301020608??", "BWF sound, wrapped by units of its own", STANDARD),
    Row("0d010301020609??", "AES3 sound, wrapped by units of its own", STANDARD),
    # ST 388: A-law.
    Row("0d010301020a", "A-law sound", FILES),
    Row("0d010301020a01??", "A-law sound, frame wrapped", FILES),
    Row("0d010301020a02??", "A-law sound, clip wrapped", STANDARD),
    # ST 429-6: encrypted essence.
    Row("0d010301020b", "encrypted essence", READER),
    # ST 422: JPEG 2000.
    Row("0d010301020c", "JPEG 2000", FILES),
    Row("0d010301020c01??", "JPEG 2000, frame wrapped", BOTH),
    Row("0d010301020c02??", "JPEG 2000, clip wrapped", STANDARD),
    # ST 436: lines of the vertical blanking and ancillary data.
    Row("0d010301020d", "VBI lines", READER),
    Row("0d010301020d0000", "VBI lines, frame wrapped", READER),
    Row("0d010301020e", "ancillary data", FILES),
    Row("0d010301020e0000", "ancillary data, frame wrapped", FILES),
    # ST 381-3: AVC.
    Row("0d010301020f", "AVC in NAL units", STANDARD),
    Row("0d0103010210", "AVC", FILES),
    Row("0d01030102106001", "AVC, frame wrapped", BOTH),
    Row("0d01030102106002", "AVC, clip wrapped", STANDARD),
    # ST 2019-4: VC-3.
    Row("0d0103010211", "VC-3", FILES),
    Row("0d010301021101??", "VC-3, frame wrapped", BOTH),
    Row("0d010301021102??", "VC-3, clip wrapped", STANDARD),
    # ST 2037: VC-1.
    Row("0d0103010212", "VC-1", READER),
    Row("0d010301021201??", "VC-1, frame wrapped", READER),
    Row("0d010301021202??", "VC-1, clip wrapped", STANDARD),
    # ST 429-5: timed text.
    Row("0d0103010213", "timed text", FILES),
    Row("0d01030102130101", "timed text, clip wrapped", FILES),
    Row("0d0103010214", "TIFF pictures", READER),
    Row("0d0103010215", "VC-2", READER),
    Row("0d0103010216", "AAC sound (ADIF)", READER),
    Row("0d0103010217", "AAC sound (ADTS)", READER),
    Row("0d0103010218", "AAC sound (LATM)", READER),
    Row("0d010301021b", "VC-5", READER),
    # RDD 44: ProRes.
    Row("0d010301021c", "ProRes", FILES),
    Row("0d010301021c01??", "ProRes, frame wrapped", BOTH),
    Row("0d010301021c02??", "ProRes, clip wrapped", STANDARD),
    # ST 2067-201: immersive audio.
    Row("0d010301021d", "immersive audio", READER),
    # ST 2124: JPEG XS.
    Row("0d0103010221", "JPEG XS", STANDARD),
    # RDD 48: FFV1.
    Row("0d0103010223", "FFV1", READER),
    # ST 379: several mappings together.
    Row("0d010301027f", "several kinds of essence", BOTH),
    Row("0d010301027f01??", "several kinds of essence", BOTH),
)

# What is in a container of these digits if its descriptor states no coding: the picture, and the sound.
PICTURES_WITHIN = (
    ("0d0103010201", "D-10"),
    ("0d0103010202", "DV"),
    ("0d01030102046", "MPEG video"),
    ("0d0103010205", "uncompressed"),
    ("0d010301020c", "JPEG 2000"),
    ("0d010301020f", "AVC"),
    ("0d0103010210", "AVC"),
    ("0d0103010211", "VC-3"),
    ("0d0103010212", "VC-1"),
    ("0d0103010215", "VC-2"),
    ("0d010301021b", "VC-5"),
    ("0d010301021c", "ProRes"),
    ("0d0103010221", "JPEG XS"),
    ("0d0103010223", "FFV1"),
)
SOUNDS_WITHIN = (
    ("0d0103010201", "PCM"),
    ("0d01030102044", "MPEG audio"),
    ("0d01030102045", "MPEG audio"),
    ("0d0103010206", "PCM"),
    ("0d010301020a", "A-law"),
    ("0d0103010216", "AAC"),
    ("0d0103010217", "AAC"),
    ("0d0103010218", "AAC"),
)
