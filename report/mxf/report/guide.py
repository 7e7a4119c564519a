"""What the words and the characters of mxf_tool say, as docs/GUIDE.md and docs/FORMATS.md have them."""
from __future__ import annotations

# The findings of docs/GUIDE.md: the text of each, and what to do. A test compares them.
FINDINGS = {
    "F01": ("different packets at one offset", "`show` marks them `disputed`. Find out which reading holds, and leave out the other one's sources."),
    "F02": ("overlapping packets", "Compare the OFFSETs of the sources with the places that were restored. Then as for F01."),
    "F03": ("bytes not held", "Restore it if you need it; after a `head`, from that packet on. In a restore of parts such findings may stay."),
    "F04": ("partition pack unreadable", "Restore these bytes again, from another copy of the medium."),
    "F05": ("partition names another offset", "Correct the OFFSETs. If a single one says so, its pack is damaged or wrong."),
    "F06": ("previous partition doesn't fit", "`link missing`: restore from the offset after `previous`, unless a pack is held there and disputed. `link skips`: a partition between isn't named; it may be of another reading. `link wrong`: as for F04."),
    "F07": ("footer marked open", "[Read the file again](#a-recording-that-still-grows) when it is closed. Until then take what it says of lengths and metadata as provisional."),
    "F08": ("footer partition not held", "Restore from the offset after `footer` to the end."),
    "F09": ("header metadata not whole", "See the `copy` line: restore from START, or from the end of the pack if it is `none`. Or take another copy, if `preferred` names one that is `finished`."),
    "F10": ("set unreadable", "Restore these bytes again. If they come back the same, or [`verify`](ARCHIVE.md#whether-a-copy-is-as-it-was) finds them as they were when the recording came in, the file was written so: other sets aren't touched by it."),
    "F11": ("index segment unreadable", "As for F10."),
    "F12": ("random index pack doesn't fit", "With `rip-entry .. missing` lines: restore those partitions, and it will fit; if a `note` line there says `disputed`, [settle the dispute](#a-recording-that-still-grows), for restoring changes nothing. With none: packets after it, or a partition that it doesn't list, are of another reading or file."),
    "F13": ("reference not found", "With F09 beside it, restore the rest of the header metadata. Otherwise the file was written so; the `package` and `identification` lines say which reference it is, and if none does, it is that to the content storage."),
    "F14": ("partition chain not whole", "Its causes mostly have findings of their own, F01 to F08, and it goes with them. Alone: no header partition stands at 0, no footer partition is held, or there is one too many of either."),
}  # fmt: skip

# The doubts of docs/GUIDE.md: the text of each, and what it may be. A test compares them.
DOUBTS = {
    "G01": ("header metadata without one Preface", "The key of the Preface is damaged, or a set became one. `describe` says nothing of such a copy."),
    "G02": ("strange packet in header metadata", "The key of a set, of a fill or of the primer pack is damaged."),
    "G03": ("index doesn't fit its partition", "The key of an index table segment or of a fill beside it is damaged, or IndexByteCount is. Edit units of that segment aren't known."),
    "G04": ("no packet where a unit begins", "A stream offset in the index is damaged. Or a piece was handed at a wrong offset, or a packet is lost and what follows it moved up. The units behind it are off too, up to the next one that begins at a packet."),
    "G06": ("strange packet", "Its key is damaged, and it was another packet: a partition pack, a random index pack, essence. Or it is data that only one program knows."),
    "G07": ("essence that no track names", "The number of the track in its key is damaged. Or it is essence that the header metadata don't tell of."),
    "G08": ("set's key doesn't fit its items", "The key of the set is damaged: its items are of another one."),
    "G09": ("reference to no set", "An identifier is damaged, in the set that refers or in the one that it means."),
    "G10": ("item that the primer lacks", "The tag of the item is damaged, or the primer pack."),
    "G11": ("unit behind the essence's end", "A stream offset in the index is damaged, or the number of its units. Or essence is missing at the end, and the partitions were written anew."),
}  # fmt: skip

# The characters of a map (docs/FORMATS.md): the fill of a cell, and what it says.
MARKS = {
    "!": ("disputed", "a packet in dispute has bytes here"),
    "H": ("partition", "a header partition begins here"),
    "F": ("partition", "a footer partition begins here"),
    "B": ("partition", "a body partition begins here"),
    "R": ("partition", "the random index pack begins here"),
    "o": ("named", "a place that a pack names, or the beginning, lies here and isn't held"),
    "~": ("hand", "nothing is held, and bytes are at hand"),
    ".": ("missing", "nothing is held"),
    "+": ("part", "some bytes are held"),
    "m": ("metadata", "all is held, header metadata"),
    "i": ("index", "all is held, an index table segment"),
    "#": ("held", "all is held"),
}

# How an edit unit stands (docs/FORMATS.md), the worst first: its fill, its letter, and what that says.
STANDINGS = {
    "differs": ("disputed", "x", "a packet that isn't as the reference says has some of its bytes"),
    "disputed": ("disputed", "!", "a packet in dispute has some of its bytes"),
    "missing": ("missing", ".", "none of its bytes is held or at hand"),
    "unverified": ("missing", ".", "none of its bytes was found as the reference says"),
    "not-indexed": ("unknown", "?", "no segment that is held gives it a place"),
    "ambiguous": ("unknown", "?", "segments give it different places"),
    "no-partition": ("unknown", "?", "no partition of its stream is held before it"),
    "several": ("unknown", "?", "several partitions begin at its place"),
    "unknown": ("unknown", "?", "the first packet of essence of its partition isn't known"),
    "elsewhere": ("unknown", "?", "it lies in a partition that isn't held, or nowhere"),
    "unsure": ("unknown", "?", "a partition that isn't known may lie before it"),
    "part": ("part", "+", "some of its bytes are there, or its end isn't known"),
    "hand": ("hand", "~", "its bytes are in the sources, in no packet that is held"),
    "held": ("held", "#", "all of its bytes are held"),
    "verified": ("held", "=", "all of its bytes are as the reference says"),
}
STANDING_WORDS = list(STANDINGS)

# Why bytes are to be restored (docs/FORMATS.md).
REASONS = {
    "header": "the header partition, which tells what the file is",
    "footer": "the footer partition; after it come the last index and often the random index pack",
    "metadata": "header metadata",
    "index": "index table segments",
    "entry": "a partition that the random index pack names",
    "previous": "the partition before another",
    "gap": "no pack says what",
    "front": "what may tell where edit units lie",
    "unit": "bytes of edit units",
}

# How a piece or a range ends (docs/FORMATS.md).
STOPS = {
    "end": "It ends with a packet.",
    "truncated": "The packet there isn't whole in this piece. Restore from there on, and longer.",
    "not-ul": "No packet begins there. Bytes are damaged, or the piece doesn't begin at a packet, or the recording isn't closed.",
    "bad-length": "The packet there states no length that can be. Its bytes are damaged.",
    "too-far": "The packet there would end too far away. Its length is damaged, or the OFFSET is wrong.",
    "no-start": "No packet begins in what was searched of this range.",
}

# What `truncated` says if a range is among the sources: then the bytes of the packet count that are there.
CUT_BESIDE_RANGES = "It ends inside a packet. The orders say what to restore."

# What is said of bytes by the word of their extent.
EXTENTS = {
    "held": "held",
    "disputed": "held, in dispute",
    "hand": "at hand",
    "missing": "not held",
}
