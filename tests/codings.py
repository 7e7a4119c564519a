#!/usr/bin/env python3
"""Makes an MXF file of each coding that ffmpeg writes, and compares what `mxf_report --json` says of it with what ffprobe
says, field by field: coding, size, rate, aspect, scan, sampling, bits and channels, duration and timecode. Sees that each
row of the tables of labels that says that ffmpeg writes it is shown by one of these files. Only failures are printed; the
last line is 'N passed, M failed'.

    tests/codings.py PROGRAM    PROGRAM is mxf_tool
"""
from __future__ import annotations

import concurrent.futures
import json
import os
import re
import subprocess
import sys
import tempfile
from pathlib import Path
from typing import Any, NamedTuple

TOP = Path(__file__).resolve().parent.parent
sys.path.insert(0, str(TOP / "report"))

from mxf.labels.containers import CONTAINERS, PATTERNS  # noqa: E402 (sys.path is set above)
from mxf.labels.naming import digits_of, nearest  # noqa: E402
from mxf.labels.pictures import PICTURES  # noqa: E402
from mxf.labels.rows import BOTH, WRITTEN  # noqa: E402

PCM = "-c:a pcm_s16le"
FILM, NTSC, DOUBLE, DOUBLE_NTSC = "25", "30000/1001", "50", "60000/1001"


class Case(NamedTuple):
    """A file that ffmpeg makes: its name, size and rate, the options of the encoders, and what its picture is called."""

    name: str
    size: str
    rate: str
    options: str
    coding: str | None


def mpeg2(name: str, size: str, options: str, coding: str, sound: str = PCM, rate: str = FILM) -> Case:
    """A file of MPEG-2."""
    return Case(name, size, rate, f"-c:v mpeg2video {options} {sound}", f"MPEG-2 {coding}")


def d10(rate: int, size: str, frames: str, lines: int) -> Case:
    """A file of D-10, whose frames have one size."""
    bits = f"{rate}000k"
    options = (
        "-c:v mpeg2video -pix_fmt yuv422p -g 1 -flags +ildct+low_delay -dc 10 -non_linear_quant 1 -intra_vlc 1 -qmin 1 -qmax 12"
        f" -lmin 1*QP2LAMBDA -rc_max_vbv_use 1 -rc_min_vbv_use 1 -b:v {bits} -minrate {bits} -maxrate {bits}"
        f" -bufsize {rate * 40000} -rc_init_occupancy {rate * 40000} -ps 1 -top 1 {PCM} -ac 4 -f mxf_d10"
    )
    return Case(f"d10_{rate}_{lines}", size, frames, options, f"MPEG-2 D-10, {rate} Mb/s {lines} lines")


def dv(name: str, size: str, rate: str, pixels: str, coding: str) -> Case:
    """A file of DV."""
    return Case(name, size, rate, f"-c:v dvvideo -pix_fmt yuv{pixels}p {PCM}", coding)


def dnx(number: int, size: str, rate: str, options: str, coding: str) -> Case:
    """A file of VC-3, by the number of its compression."""
    return Case(f"vc3_{number}", size, rate, f"-c:v dnxhd {options} {PCM}", f"{coding} (VC-3 {number})")


def avc(name: str, options: str, coding: str, size: str = "320x180", rate: str = FILM) -> Case:
    """A file of AVC."""
    return Case(f"avc_{name}", size, rate, f"-c:v libx264 {options} {PCM}", coding)


def avc_intra(kind: int, size: str, rate: str, coding: str) -> Case:
    """A file of AVC-Intra."""
    pixels = "yuv422p10" if kind == 100 else "yuv420p10"
    interlaced = ":interlaced=1" if "i " in coding else ""
    options = f"-pix_fmt {pixels} -x264-params avcintra-class={kind}{interlaced}"
    return avc(f"intra_{kind}_{coding.replace(' ', '_')}", options, f"AVC-Intra {kind}, {coding}", size, rate)


FULL, SMALL, PAL, ATOM = "1920x1080", "320x180", "720x576", "-f mxf_opatom"
LOW, TEN = "-pix_fmt yuv422p", "-pix_fmt yuv422p10"

CASES = (
    # ffmpeg writes the labels of long GOP for intra too.
    mpeg2("main", PAL, "-g 12 -bf 2", "MP@ML, long GOP"),
    mpeg2("main_intra", PAL, "-g 1", "MP@ML, long GOP"),
    mpeg2("422", PAL, f"{LOW} -g 12", "422P@ML, long GOP"),
    mpeg2("422_high", FULL, f"{LOW} -profile:v 0 -level:v 2", "422P@HL, long GOP"),
    mpeg2("high", FULL, "-profile:v 4 -level:v 4", "MP@HL, long GOP"),
    mpeg2("high_fields", FULL, "-profile:v 4 -level:v 4 -flags +ildct+ilme -top 1", "MP@HL, long GOP"),
    mpeg2("high_1440", "1440x1080", "-profile:v 4 -level:v 6", "MP@H-14, long GOP"),
    mpeg2("24_bits", SMALL, "", "MP@ML, long GOP", "-c:a pcm_s24le -ac 2"),
    mpeg2("two_sounds", SMALL, "-map 0 -map 1 -map 1", "MP@ML, long GOP", "-c:a pcm_s24le -ac 1"),
    mpeg2("timecode", SMALL, "-timecode 10:00:00:00", "MP@ML, long GOP"),
    mpeg2("drop_frame", SMALL, "-timecode 01:02:03;04", "MP@ML, long GOP", rate=NTSC),
    *(d10(rate, "720x608", FILM, 625) for rate in (30, 40, 50)),
    d10(30, "720x512", NTSC, 525),
    dv("dv", PAL, FILM, "420", "DV 25 Mb/s, 625 lines"),
    dv("dvcpro", PAL, FILM, "411", "DVCPRO 25 Mb/s, 625 lines"),
    dv("dvcpro_525", "720x480", NTSC, "411", "DVCPRO 25 Mb/s, 525 lines"),
    dv("dvcpro50", PAL, FILM, "422", "DVCPRO50, 625 lines"),
    dv("dvcpro50_525", "720x480", NTSC, "422", "DVCPRO50, 525 lines"),
    dv("dvcprohd_50", "1440x1080", FILM, "422", "DVCPRO HD, 1080i 50"),
    dv("dvcprohd_60", "1280x1080", NTSC, "422", "DVCPRO HD, 1080i 60"),
    dv("dvcprohd_720_50", "960x720", DOUBLE, "422", "DVCPRO HD, 720p 50"),
    dv("dvcprohd_720_60", "960x720", DOUBLE_NTSC, "422", "DVCPRO HD, 720p 60"),
    dnx(1235, FULL, FILM, f"{TEN} -b:v 185M", "DNxHD 1080p, 10 bits"),
    dnx(1237, FULL, FILM, f"{LOW} -b:v 120M", "DNxHD 1080p"),
    dnx(1238, FULL, FILM, f"{LOW} -b:v 185M", "DNxHD 1080p, high rate"),
    dnx(1241, FULL, FILM, f"{TEN} -b:v 185M -flags +ildct", "DNxHD 1080i, 10 bits"),
    dnx(1242, FULL, FILM, f"{LOW} -b:v 120M -flags +ildct", "DNxHD 1080i"),
    dnx(1243, FULL, FILM, f"{LOW} -b:v 185M -flags +ildct", "DNxHD 1080i, high rate"),
    dnx(1244, "1440x1080", FILM, f"{LOW} -b:v 120M -flags +ildct", "DNxHD 1080i, 1440 wide"),
    dnx(1250, "1280x720", DOUBLE, f"{TEN} -b:v 180M", "DNxHD 720p, 10 bits"),
    dnx(1251, "1280x720", DOUBLE, f"{LOW} -b:v 180M", "DNxHD 720p, high rate"),
    dnx(1252, "1280x720", DOUBLE, f"{LOW} -b:v 120M", "DNxHD 720p"),
    dnx(1253, FULL, FILM, f"{LOW} -b:v 36M", "DNxHD 1080p, low rate"),
    dnx(1258, "960x720", DOUBLE, f"{LOW} -b:v 75M", "DNxHD 720p, 960 wide"),
    dnx(1259, "1440x1080", FILM, f"{LOW} -b:v 84M", "DNxHD 1080p, 1440 wide"),
    dnx(1270, "960x540", FILM, "-pix_fmt yuv444p10 -profile:v dnxhr_444", "DNxHR 444"),
    dnx(1271, "960x540", FILM, f"{TEN} -profile:v dnxhr_hqx", "DNxHR HQX"),
    dnx(1272, "960x540", FILM, f"{LOW} -profile:v dnxhr_hq", "DNxHR HQ"),
    dnx(1273, "960x540", FILM, f"{LOW} -profile:v dnxhr_sq", "DNxHR SQ"),
    dnx(1274, "960x540", FILM, f"{LOW} -profile:v dnxhr_lb", "DNxHR LB"),
    *(
        Case(
            f"prores_{number}",
            SMALL,
            FILM,
            f"-c:v prores_aw -profile:v {number} -pix_fmt {pixels} {PCM}",
            f"ProRes {kind}",
        )
        for number, (pixels, kind) in enumerate(
            (
                *(("yuv422p10", kind) for kind in ("422 Proxy", "422 LT", "422", "422 HQ")),
                *(("yuv444p10", kind) for kind in ("4444", "4444 XQ")),
            )
        )
    ),
    Case("jpeg2000", SMALL, FILM, f"-c:v jpeg2000 {PCM}", "JPEG 2000"),
    avc("baseline", "-profile:v baseline", "AVC Baseline"),
    avc("main", "-profile:v main", "AVC Main"),
    avc("high", "-profile:v high", "AVC High"),
    avc("high_10", "-pix_fmt yuv420p10", "AVC High 10"),
    avc("high_422", TEN, "AVC High 4:2:2"),
    avc("high_444", "-pix_fmt yuv444p", "AVC High 4:4:4"),
    avc("high_10_intra", "-pix_fmt yuv420p10 -g 1", "AVC High 10 Intra"),
    avc("high_422_intra", f"{TEN} -g 1", "AVC High 4:2:2 Intra"),
    avc("high_444_intra", "-pix_fmt yuv444p -g 1", "AVC High 4:4:4 Intra"),
    *(
        avc_intra(kind, size, rate, coding)
        for kind, width, narrow in ((50, "1440x1080", "960x720"), (100, FULL, "1280x720"))
        for size, rate, coding in (
            (width, FILM, "1080i 50"),
            (width, NTSC, "1080i 60"),
            (width, FILM, "1080p 25"),
            (width, NTSC, "1080p 30"),
            (narrow, DOUBLE, "720p 50"),
            (narrow, DOUBLE_NTSC, "720p 60"),
        )
    ),
    Case("atom_dnxhd", FULL, FILM, f"-map 0 -c:v dnxhd {LOW} -b:v 36M {ATOM}", "DNxHD 1080p, low rate (VC-3 1253)"),
    Case("atom_mpeg2", FULL, FILM, f"-map 0 -c:v mpeg2video {ATOM}", "MPEG-2 MP@HL, long GOP"),
    Case("atom_avc", SMALL, FILM, f"-map 0 -c:v libx264 {ATOM}", "AVC High"),
    Case("atom_dv", PAL, FILM, f"-map 0 -c:v dvvideo {LOW} {ATOM}", "DVCPRO50, 625 lines"),
    Case("atom_16_bits", SMALL, FILM, f"-map 1 -c:a pcm_s16le {ATOM}", None),
    Case("atom_24_bits", SMALL, FILM, f"-map 1 -c:a pcm_s24le {ATOM}", None),
)

# Why ffprobe says something else of a field of these files.
DIFFERENT = (
    (r"dvcprohd_", "width", "ffprobe tells the coded width; the header metadata that of the picture as it is shown"),
    (r"d10_", "height", "ffprobe tells the coded height, with the lines above the picture, which isn't shown"),
    (r"prores_[45]", "bits", "ffprobe tells what its decoder makes, 12 bits; ffmpeg writes that the component has 10"),
)

# How pictures are stored, by the order of fields of ffprobe.
SCANS = {"progressive": "progressive", "tt": "interlaced", "bb": "interlaced", "tb": "interlaced", "bt": "interlaced"}

# What the names of a coding have for the codec, the profile and the level of ffprobe: any of these words.
MPEG2_LEVELS = {
    ("Main", 8): "MP@ML",
    ("Main", 6): "MP@H-14",
    ("Main", 4): "MP@HL",
    ("4:2:2", 5): "422P@ML",
    ("4:2:2", 2): "422P@HL",
}
PRORES = {
    "Proxy": "ProRes 422 Proxy",
    "LT": "ProRes 422 LT",
    "Standard": "ProRes 422",
    "HQ": "ProRes 422 HQ",
    "4444": "ProRes 4444",
    "XQ": "ProRes 4444 XQ",
}
AVC = {"Constrained Baseline": "Baseline", "High 4:4:4 Predictive": "High 4:4:4"}
AVC_INTRA = {"High 10 Intra": "AVC-Intra 50, ", "High 4:2:2 Intra": "AVC-Intra 100, "}


def is_named(coding: str, stream: dict[str, Any]) -> bool:
    """Whether a coding is called as ffprobe calls it."""
    codec, profile = stream["codec_name"], stream.get("profile", "")
    if codec == "mpeg2video":
        level = MPEG2_LEVELS[profile, stream["level"]]
        return coding.startswith(f"MPEG-2 {level}, ") or coding.startswith("MPEG-2 D-10, ") and level == "422P@ML"
    if codec == "h264":
        return coding == f"AVC {AVC.get(profile, profile)}" or coding.startswith(AVC_INTRA.get(profile, "-"))
    if codec == "dnxhd":
        return coding.upper().startswith(profile + " ")
    names = {"prores": PRORES.get(profile), "jpeg2000": "JPEG 2000"}
    return coding == names[codec] if codec in names else codec == "dvvideo" and coding.startswith("DV")


def run(*words: str) -> subprocess.CompletedProcess[str]:
    """Runs a program, whose output is kept."""
    return subprocess.run(
        words, stdin=subprocess.DEVNULL, capture_output=True, text=True, errors="replace", check=False
    )


def duration_of(length: str | None) -> int | None:
    """The thousandths of a second of a length."""
    if length is None:
        return None
    hours, minutes, seconds = length.split(":")
    return round((int(hours) * 3600 + int(minutes) * 60 + float(seconds)) * 1000)


def told_of(picture: dict[str, Any]) -> dict[str, object]:
    """The fields of a picture, as mxf_report tells them."""
    return {name: picture[name] for name in ("width", "height", "rate", "aspect", "scan", "sampling", "bits")}


def probed_of(stream: dict[str, Any]) -> dict[str, object]:
    """The same fields, as ffprobe tells them."""
    pixels = re.match(r"yuv(4)(\d)(\d)p(\d+)?", stream["pix_fmt"])
    assert pixels
    return {
        "width": stream["width"],
        "height": stream["height"],
        "rate": stream["r_frame_rate"],
        "aspect": stream["display_aspect_ratio"].replace(":", "/"),
        "scan": SCANS[stream["field_order"]],
        "sampling": ":".join(pixels.groups()[:3]),
        "bits": int(pixels[4] or 8),
    }


class Tried:
    """What was tried: how often it was so, what failed, and which labels were seen."""

    def __init__(self) -> None:
        self.passed = 0
        self.failed: list[str] = []
        self.labels: set[str] = set()

    def see(self, name: str, told: object, wanted: object) -> None:
        """Counts whether something is as it is wanted."""
        if told == wanted:
            self.passed += 1
        else:
            self.failed.append(f"FAILED: {name}: {told!r}, not {wanted!r}")

    def see_field(self, case: Case, field: str, told: object, probed: object) -> None:
        """Counts whether a field is as ffprobe tells it, or is another where that is known of ffprobe."""
        reasons = [why for names, which, why in DIFFERENT if which == field and re.match(names, case.name)]
        if reasons:
            self.see(f"{case.name}: {field} is another, since {reasons[0]}", told != probed, True)
        else:
            self.see(f"{case.name}: {field}", told, probed)

    def see_picture(self, case: Case, pictures: list[dict[str, Any]], stream: dict[str, Any]) -> None:
        """Compares the picture."""
        self.see(f"{case.name}: pictures", [one["count"] for one in pictures], [1])
        for picture in pictures:
            self.see(f"{case.name}: coding", picture["coding"], case.coding)
            self.see(f"{case.name}: {picture['coding']} by ffprobe", is_named(str(picture["coding"]), stream), True)
            probed = probed_of(stream)
            for field, told in told_of(picture).items():
                self.see_field(case, field, told, probed[field])

    def see_sounds(self, case: Case, sounds: list[dict[str, Any]], streams: list[dict[str, Any]]) -> None:
        """Compares the sounds."""
        told = [
            (one["coding"], one["rate"], one["channels"], one["bits"]) for one in sounds for _ in range(one["count"])
        ]
        probed = [
            ("PCM" if re.fullmatch(r"pcm_s\d+le", one["codec_name"]) else one["codec_name"],
             f"{one['sample_rate']}/1", one["channels"], one["bits_per_sample"])
            for one in streams
        ]  # fmt: skip
        self.see(f"{case.name}: sounds", told, probed)

    def see_file(self, case: Case, told: dict[str, Any], probed: dict[str, Any]) -> None:
        """Compares all that is told of a file."""
        streams = {kind: [one for one in probed["streams"] if one["codec_type"] == kind] for kind in ("video", "audio")}
        if case.coding is None:
            self.see(f"{case.name}: no picture", told["pictures"], [])
        else:
            self.see_picture(case, told["pictures"], streams["video"][0])
        self.see_sounds(case, told["sounds"], streams["audio"])
        self.see(f"{case.name}: duration", duration_of(told["length"]), int(float(probed["format"]["duration"]) * 1000))
        self.see(f"{case.name}: timecode", told["first"], probed["format"]["tags"]["timecode"])
        self.see(f"{case.name}: verdict", told["verdict"], "Whole")
        pattern = "OP-Atom" if case.name.startswith("atom_") else "OP1a"
        self.see(f"{case.name}: pattern", told["pattern"], pattern)
        self.labels |= {one["label"] for one in told["pictures"] + told["containers"] if one["label"]}

    def see_rows(self) -> None:
        """Sees that the rows that ffmpeg is said to write are those of the labels of its files."""
        shown = set()
        for label in self.labels:
            digits = digits_of(label)
            assert digits
            shown |= {nearest(rows, digits) for rows in (CONTAINERS, PICTURES)}
        # The descriptor of all essence has the container of several kinds, which is left out beside these.
        several = {row for row in CONTAINERS if row.name == "several kinds of essence"}
        for row in CONTAINERS + PICTURES:
            if len(row.digits) == 16 and row not in several:
                self.see(f"a file shows {row.digits}, {row.name}", row in shown, row.checked in (WRITTEN, BOTH))
        self.see("the pattern of OP-Atom is shown", [row.checked for row in PATTERNS], [WRITTEN])


def tried_file(case: Case, folder: str) -> tuple[Case, str, str]:
    """Makes a file; what mxf_report and ffprobe say of it."""
    path = os.path.join(folder, f"{case.name}.mxf")
    words = [
        "ffmpeg",
        "-v",
        "error",
        "-y",
        "-threads",
        "1",
        "-f",
        "lavfi",
        "-i",
        f"testsrc2=size={case.size}:rate={case.rate}",
    ]
    words += ["-f", "lavfi", "-i", "sine=sample_rate=48000", "-t", "0.08", *case.options.split(), path]
    made = run(*words)
    if made.returncode:
        return case, made.stderr, ""
    told = run(str(TOP / "report" / "mxf_report"), "--json", path)
    probed = run("ffprobe", "-v", "error", "-of", "json", "-show_format", "-show_streams", path)
    os.remove(path)
    return case, told.stdout or told.stderr, probed.stdout


def main() -> int:
    """Tries all codings."""
    os.environ["MXF_TOOL"] = sys.argv[1]
    tried = Tried()
    with tempfile.TemporaryDirectory() as folder:
        with concurrent.futures.ThreadPoolExecutor(len(os.sched_getaffinity(0))) as threads:
            for case, told, probed in threads.map(lambda one: tried_file(one, folder), CASES):
                try:
                    tried.see_file(case, json.loads(told), json.loads(probed))
                except (ValueError, KeyError, IndexError) as fault:
                    tried.failed.append(f"FAILED: {case.name}: {fault!r}: {told[:400]} {probed[:200]}")
    tried.see_rows()
    print("\n".join([*tried.failed, f"{tried.passed} passed, {len(tried.failed)} failed"]))
    return int(bool(tried.failed))


if __name__ == "__main__":
    sys.exit(main())
