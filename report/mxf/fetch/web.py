"""A recording behind HTTP, by the libraries requests and urllib3."""
from __future__ import annotations

import http
import re
from collections.abc import Generator, Iterator
from typing import NamedTuple
from urllib.parse import urlsplit, urlunsplit

import requests
import urllib3
from requests.adapters import HTTPAdapter
from urllib3.exceptions import HTTPError, LocationValueError, MaxRetryError, NewConnectionError
from urllib3.util.retry import Retry

from mxf.faults import READ, OwnFault
from mxf.fetch.faults import changed
from mxf.fetch.places import BLOCK
from mxf.fetch.recording import Identity, Recording
from mxf.fetch.spans import NEAR, Span

TRIES = 5  # that follow one that failed
LEAST, GREATEST = 0.5, 30.0  # seconds between two of them
STATUSES = (429, *range(500, 600))  # that may be another the next time

EARLY = "the answer ended early"

CONTENT_RANGE = re.compile(r"bytes ([0-9]{1,19})-([0-9]{1,19})/([0-9]{1,19}|\*)")
NO_RANGE = re.compile(r"bytes \*/([0-9]{1,19})")  # of a status 416

# Faults of a URL, or of one that a redirect leads to; and those that stay however often it is tried.
BAD_URL = (
    requests.exceptions.InvalidURL,
    requests.exceptions.InvalidSchema,
    requests.exceptions.MissingSchema,
    LocationValueError,
)
LASTING = (requests.exceptions.SSLError, requests.TooManyRedirects, *BAD_URL)

Headers = dict[str, str]


class Patience(Retry):
    """How often and when a request is tried again: after half a second first, and each time after twice as long."""

    def get_backoff_time(self) -> float:
        """The seconds until the next try."""
        return min(GREATEST, LEAST * 2.0 ** max(0, len(self.history) - 1))

    def get_retry_after(self, response: urllib3.HTTPResponse) -> float | None:
        """The seconds that the server asks for, if they aren't too many."""
        told = super().get_retry_after(response)
        return None if told is None else min(GREATEST, float(told))


class Session(requests.Session):
    """A session that hands the headers of the call to the host of its URL alone."""

    def __init__(self, headers: Headers, jobs: int) -> None:
        super().__init__()
        self.given = headers
        waits = Patience(
            TRIES, connect=0, read=0, other=0, redirect=0, status_forcelist=STATUSES, raise_on_status=False
        )
        adapter = HTTPAdapter(pool_connections=jobs, pool_maxsize=jobs, pool_block=True, max_retries=waits)
        self.mount("http://", adapter)
        self.mount("https://", adapter)

    def rebuild_auth(self, prepared_request: requests.PreparedRequest, response: requests.Response) -> None:
        """Takes the headers of the call away where a redirect leads to another host."""
        if self.should_strip_auth(response.request.url, prepared_request.url):
            for name in self.given:
                prepared_request.headers.pop(name, None)
        super().rebuild_auth(prepared_request, response)


def as_given(request: requests.PreparedRequest) -> requests.PreparedRequest:
    """Leaves a request as it is, so that no ~/.netrc takes the place of a header Authorization of the call."""
    return request


class Part(NamedTuple):
    """Which bytes of an answer's body are wanted: so many after so many others."""

    skipped: int
    length: int


class WebPlace:
    """The URL of a recording, asked for ranges. What it says of a fault has neither the password nor the query of the URL."""

    def __init__(self, url: str, headers: Headers, timeout: float, jobs: int) -> None:
        self.url = url
        self.shown = shown_url(url)
        self.headers = headers
        self.timeout = timeout
        self.session = Session(headers, jobs)
        self.has_answered = False

    def blocks(self, span: Span, recording: Recording) -> Generator[bytes, None, None]:
        """The bytes of the span. What is left of it is asked for again if an answer ends early."""
        at, patience = span.start, Patience(TRIES)
        while at < end_of(span, recording):
            before = at
            try:
                for block in self.answer(Span(at, end_of(span, recording)), recording):
                    at += len(block)
                    yield block
            except (requests.RequestException, HTTPError) as fault:
                patience = self.again(patience if at == before else Patience(TRIES), self.told(fault))
            else:
                if at == before:
                    return

    def again(self, patience: Patience, told: str) -> Patience:
        """Waits until the next try, if there is one."""
        try:
            following = patience.increment("GET", self.shown, error=HTTPError(told))
        except MaxRetryError as fault:
            raise self.fault(f"{told}, {TRIES + 1} times") from fault
        following.sleep()
        assert isinstance(following, Patience)
        return following

    def answer(self, span: Span, recording: Recording) -> Iterator[bytes]:
        """The bytes of one answer, as far as they come."""
        headers = {**self.headers, "Range": f"bytes={span.start}-{span.end - 1}", "Accept-Encoding": "identity"}
        if recording.identity.etag is not None:
            headers["If-Match"] = recording.identity.etag
        auth = as_given if any(name.lower() == "authorization" for name in self.headers) else None
        with self.session.get(self.url, headers=headers, auth=auth, stream=True, timeout=self.timeout) as response:
            self.has_answered = True
            part = self.part_of(response, span, recording)
            response.raw.read(part.skipped, decode_content=False)
            left = part.length
            while left:
                block = response.raw.read(min(BLOCK, left), decode_content=False)
                if not block:
                    raise HTTPError(EARLY)
                left -= len(block)
                yield block

    def part_of(self, response: requests.Response, span: Span, recording: Recording) -> Part:
        """Which part of an answer is wanted, after it was looked at."""
        if response.status_code == 412:
            raise changed(recording.shown, recording.begun)
        if response.headers.get("Content-Encoding", "identity") != "identity":
            raise self.fault(f"the server sends bytes in the coding {response.headers['Content-Encoding']}")
        if response.status_code == 206:
            return self.part_of_range(response, span, recording)
        if response.status_code == 200:
            return self.part_of_whole(response, span, recording)
        beyond = NO_RANGE.fullmatch(response.headers.get("Content-Range", ""))
        if response.status_code == 416 and beyond:
            recording.meet(identity_of(response, int(beyond[1])))
            if span.start >= int(beyond[1]):
                return Part(0, 0)
        raise self.fault(f"the server answers {status_text(response.status_code)}")

    def part_of_range(self, response: requests.Response, span: Span, recording: Recording) -> Part:
        """The same of an answer with status 206, whose Content-Range has to be the one that was asked for."""
        told = response.headers.get("Content-Range", "none")
        found = CONTENT_RANGE.fullmatch(told)
        size = None if not found or found[3] == "*" else int(found[3])
        wanted = Span(span.start, span.end if size is None else min(span.end, size))
        if not found or int(found[1]) != wanted.start or not wanted.start <= int(found[2]) < wanted.end:
            raise self.fault(f"bytes {span.start}-{span.end - 1} were asked for, and the server sends {told}")
        recording.meet(identity_of(response, size))
        return Part(0, int(found[2]) + 1 - span.start)

    def part_of_whole(self, response: requests.Response, span: Span, recording: Recording) -> Part:
        """The same of an answer that has the whole in place of the range, which does if that is small."""
        told = response.headers.get("Content-Length", "")
        if not re.fullmatch("[0-9]{1,5}", told) or int(told) >= NEAR:
            raise self.fault("the server gives no ranges: it answers 200 to one")
        size = int(told)
        recording.meet(identity_of(response, size))
        start = min(span.start, size)
        return Part(start, min(span.end, size) - start)

    def told(self, fault: Exception) -> str:
        """What went wrong on the way, in words that name no secret. If no answer came yet, a server that isn't reached is a
        fault."""
        text = way_text(fault, self.timeout)
        if isinstance(fault, LASTING) or (
            isinstance(fault, requests.ConnectionError) and not self.has_answered and is_unreached(fault)
        ):
            raise self.fault(text) from None
        return text

    def fault(self, told: str) -> OwnFault:
        """A fault of reading the URL."""
        return OwnFault(READ, f"read fault: {self.shown}: {told}")

    def stop(self) -> None:
        """What is under way ends with the program."""


def end_of(span: Span, recording: Recording) -> int:
    """Where a span ends in a recording."""
    size = recording.identity.size
    return span.end if size is None else min(span.end, size)


def identity_of(response: requests.Response, size: int | None) -> Identity:
    """What an answer says of the recording. A weak ETag doesn't tell bytes apart."""
    etag = response.headers.get("ETag")
    return Identity(
        size, None if etag is None or etag.startswith("W/") else etag, response.headers.get("Last-Modified")
    )


def shown_url(url: str) -> str:
    """A URL without what may be secret in it: a name and a password, a query, a fragment."""
    parts = urlsplit(url)
    return urlunsplit((parts.scheme, parts.netloc.rpartition("@")[2], parts.path, "", ""))


def status_text(status: int) -> str:
    """A status and its name."""
    try:
        return f"{status} {http.HTTPStatus(status).phrase}"
    except ValueError:
        return str(status)


def is_unreached(fault: requests.ConnectionError) -> bool:
    """Whether no connection came about: nobody listens there, or nobody has the name."""
    return bool(fault.args) and isinstance(getattr(fault.args[0], "reason", None), NewConnectionError)


def way_text(fault: BaseException, timeout: float) -> str:
    """What went wrong on the way, by the fault and by what it came of. Texts of the libraries may have the URL in them."""
    if isinstance(fault, requests.exceptions.SSLError):
        return "the certificate of the server doesn't do"
    if isinstance(fault, requests.TooManyRedirects):
        return "the server redirects too often"
    if isinstance(fault, BAD_URL):
        return "no request can be made of this URL, or of the one that it leads to"
    if isinstance(fault, requests.Timeout) or "timed out" in str(fault):
        return f"nothing came for {timeout:g} seconds"
    cause: BaseException | None = fault
    while cause is not None:
        if isinstance(cause, OSError) and cause.strerror:
            return cause.strerror
        cause = cause.__cause__ or cause.__context__
    return EARLY
