"""What the container, the pictures and the sounds of a recording are called, and who wrote it: by the lines of mxf_tool, and
by names of labels that stand here once more, for the labels of the files that tests make."""
import collections
import fractions

# By the last eight bytes of a label.
NAMES = {
    "0d01020110030000": "OP-Atom",
    "0d01030102046001": "MPEG video stream, frame wrapped",
    "0d01030102060100": "BWF sound, frame wrapped",
    "0d01030102060300": "AES3 sound, frame wrapped",
    "0d010301020c0100": "JPEG 2000, frame wrapped",
    "0d010301021c0100": "ProRes, frame wrapped",
    "0401020201011100": "MPEG-2 MP@ML, long GOP",
    "0401020203010100": "JPEG 2000",
    "0401020203060400": "ProRes 422 HQ",
}
# What lies in a container whose descriptor states no coding: of pictures, and of sounds.
WITHIN = {"picture": {"0d01030102046001": "MPEG video"}, "sound": {"0d01030102060100": "PCM", "0d01030102060300": "PCM"}}
SEVERAL = "0d010301027f0100"
SCANS = ("progressive", "interlaced", "single fields", "interlaced", "progressive, in segments")
SAMPLINGS = {(1, 1): "4:4:4", (2, 1): "4:2:2", (2, 2): "4:2:0", (4, 1): "4:1:1"}


def name_of(label):
    """What a label is called, or the label."""
    return NAMES.get(label[16:], label)


def stated(label):
    """A label, if it isn't all zeros."""
    return label if label and set(label) != {"0"} else None


def per_second(rate):
    """A rate in words."""
    if rate is None:
        return None
    number = fractions.Fraction(rate)
    return f"{number} a second" if number.denominator == 1 else f"{float(number):.2f} ({rate}) a second"


def number_of(count, word):
    """A number of things in words."""
    return None if count is None else f"{count} {word}{'' if count == 1 else 's'}"


def size_of(line, front):
    """The size of a whole picture."""
    width, height = line[f"{front}width"], line[f"{front}height"]
    return None if None in (width, height) else f"{width} x {height * (2 if line['layout'] in (1, 4) else 1)}"


def words_of(kind, line, essence):
    """What is said of a picture or a sound."""
    label = stated(line["coding"])
    coding = name_of(label) if label else WITHIN[kind].get((essence["container"] or "")[16:], "coding not stated")
    if kind == "sound":
        parts = (coding, number_of(line["channels"], "channel"), per_second(line["rate"]), number_of(line["bits"], "bit"))
        return ", ".join(filter(None, parts))
    sizes = list(dict.fromkeys(filter(None, (size_of(line, "display-"), size_of(line, "")))))
    parts = (
        coding,
        " of ".join(sizes) + (" stored" if len(sizes) == 2 else ""),
        per_second(essence["rate"]),
        line["aspect"] and f"aspect {line['aspect']}",
        None if line["layout"] is None else SCANS[line["layout"]],
        SAMPLINGS.get((line["horizontal"], line["vertical"])),
        number_of(line["depth"], "bit"),
    )
    return ", ".join(filter(None, parts))


def told(kind, describe):
    """The pictures or the sounds of a recording, and how often each is stated."""
    essence, counts = None, collections.Counter()
    for line in describe:
        essence = line if line["line"] == "essence" else essence
        counts.update([words_of(kind, line, essence)] if line["line"] == kind else [])
    return counts


def together(counts):
    """Pictures or sounds in one text; none if there are none."""
    return "; ".join(text + (f" ({count} times)" if count > 1 else "") for text, count in counts.items()) or None


def coding(describe):
    """What the coding of the first picture is called, or else of the first sound."""
    kinds = [kind for kind in ("picture", "sound") if any(line["line"] == kind for line in describe)]
    essence = None
    for line in describe:
        essence = line if line["line"] == "essence" else essence
        if line["line"] == next(iter(kinds), None):
            label = stated(line["coding"])
            named = name_of(label) if label else WITHIN[line["line"]].get((essence["container"] or "")[16:])
            if named:
                return named
    return None


def container(describe, show):
    """The operational pattern and the containers, by the descriptors or else by the partition packs."""
    labels = [stated(line["container"]) for line in describe if line["line"] == "essence"]
    labels = list(filter(None, labels)) or [line["label"] for line in show if line["line"] == "container" and stated(line["label"])]
    labels = [label for label in labels if label[16:] != SEVERAL] or labels
    names = ["several kinds of essence" if label[16:] == SEVERAL else name_of(label) for label in labels]
    patterns = [name_of(line["pattern"]) for line in show if line["line"] == "partition"]
    return "; ".join(dict.fromkeys([*patterns[:1], *names])) or None


def writer(show):
    """The program that wrote the file last, and when, and how many did before."""
    programs = []
    for line in show:
        if line["line"] == "identification":
            programs.append({})
        elif "identification" in line and line["line"] in ("company", "product", "version"):
            programs[-1][line["line"]] = line["text"]
        elif "identification" in line and line["line"] == "modified" and line["year"]:
            time = "{year:04}-{month:02}-{day:02}T{hour:02}:{minute:02}:{second:02}".format(**line)
            programs[-1]["modified"] = f"{time}.{4 * line['quarter']:03}"
    if not programs or not any(programs[-1].values()):
        return None
    last = programs[-1]
    words = " ".join(last[name] for name in ("company", "product", "version") if last.get(name))
    text = ", ".join(filter(None, (words, last.get("modified"))))
    return text + (f"; {number_of(len(programs) - 1, 'program')} before it" if len(programs) > 1 else "")
