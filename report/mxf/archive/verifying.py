"""The command that verifies a recording, and keeps what comes of it."""
from __future__ import annotations

from mxf.archive import answering, database, origins, storing
from mxf.calling import Tool
from mxf.faults import USAGE, OwnFault
from mxf.sources import source_of
from mxf.archive.words import Words


def verify(words: Words) -> int:
    """Verifies a recording, and keeps what comes of it. The status is that of mxf_tool."""
    sources = origins.named_sources(words.source, words.sources)
    if not sources.each():
        raise OwnFault(USAGE, "no source is named")
    against = origins.named_sources(words.against, None).each()
    with database.reading(words.database) as connection:
        answering.identity_of(connection, words.name)
    database.check_place(words.database)
    tool = Tool()
    kept = {"program": tool.version(), "against": " ".join(source_of(word).word() for word in against)}
    call = tool.call(["verify", *(part for source in against for part in ("--against", source))], sources)
    said = list(tool.lines_of(call))
    told_words = [source_of(word).word() for word in sources.each()]
    with database.writing(words.database) as connection:
        storing.store_verification(connection, answering.identity_of(connection, words.name), kept, said, told_words)
    print("verified {packets} of {all-packets} packets {bytes} of {all-bytes} bytes differs {differs} cut {cut} "
          "unknown {unknown}".format(**said[-1]))  # fmt: skip
    return call.status
