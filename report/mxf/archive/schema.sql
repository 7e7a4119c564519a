-- The tables and views of the database. docs/ARCHIVE.md says what each is. Numbers that can pass 9,223,372,036,854,775,807
-- have the type ANY, and stand as text then. The last columns of recordings stand as ALTER TABLE writes them.

CREATE TABLE recordings (
  id INTEGER PRIMARY KEY,
  name TEXT NOT NULL UNIQUE,
  state INTEGER NOT NULL,
  title TEXT, length TEXT, timecode TEXT,
  pattern TEXT, metadata TEXT, chain TEXT,
  is_missing INTEGER NOT NULL, is_damaged INTEGER NOT NULL, is_disputed INTEGER NOT NULL, is_changed INTEGER NOT NULL,
  verified TEXT NOT NULL
, container TEXT, coding TEXT, picture TEXT, sound TEXT) STRICT;
CREATE INDEX recordings_missing ON recordings (is_missing, name);
CREATE INDEX recordings_damaged ON recordings (is_damaged, name);
CREATE INDEX recordings_disputed ON recordings (is_disputed, name);
CREATE INDEX recordings_changed ON recordings (is_changed, name);
CREATE INDEX recordings_verified ON recordings (verified, name);

CREATE TABLE states (
  recording INTEGER NOT NULL REFERENCES recordings ON DELETE CASCADE,
  number INTEGER NOT NULL,
  gathered TEXT NOT NULL, program TEXT NOT NULL, is_skim INTEGER NOT NULL,
  packets INTEGER NOT NULL, "end" ANY, held ANY NOT NULL, hand ANY NOT NULL, missing ANY NOT NULL,
  findings INTEGER NOT NULL, disputes INTEGER NOT NULL,
  orders INTEGER NOT NULL, ordered ANY NOT NULL, open INTEGER NOT NULL, digest TEXT,
  PRIMARY KEY (recording, number)
) STRICT, WITHOUT ROWID;

CREATE TABLE sources (
  recording INTEGER NOT NULL REFERENCES recordings ON DELETE CASCADE,
  number INTEGER NOT NULL,
  word TEXT NOT NULL, form TEXT NOT NULL, "offset" INTEGER, path TEXT NOT NULL,
  size INTEGER, modified TEXT, sha256 TEXT,
  PRIMARY KEY (recording, number)
) STRICT, WITHOUT ROWID;

CREATE TABLE stops (
  recording INTEGER NOT NULL REFERENCES recordings ON DELETE CASCADE,
  number INTEGER NOT NULL,
  source INTEGER NOT NULL, "offset" INTEGER NOT NULL, stop TEXT NOT NULL, at INTEGER,
  PRIMARY KEY (recording, number)
) STRICT, WITHOUT ROWID;

CREATE TABLE programs (
  recording INTEGER NOT NULL REFERENCES recordings ON DELETE CASCADE,
  number INTEGER NOT NULL,
  company TEXT, product TEXT, version TEXT, product_uid TEXT, generation TEXT, modified TEXT,
  PRIMARY KEY (recording, number)
) STRICT, WITHOUT ROWID;

CREATE TABLE packages (
  recording INTEGER NOT NULL REFERENCES recordings ON DELETE CASCADE,
  number INTEGER NOT NULL,
  kind TEXT NOT NULL, uid TEXT NOT NULL, name TEXT, created TEXT, body_sid INTEGER, index_sid INTEGER,
  PRIMARY KEY (recording, number)
) STRICT, WITHOUT ROWID;
CREATE INDEX packages_uid ON packages (substr(uid, -16), uid);

CREATE TABLE tracks (
  recording INTEGER NOT NULL REFERENCES recordings ON DELETE CASCADE,
  number INTEGER NOT NULL,
  package INTEGER NOT NULL,
  track INTEGER NOT NULL, kind TEXT, essence TEXT NOT NULL, rate TEXT NOT NULL, origin INTEGER NOT NULL,
  duration INTEGER, length TEXT, name TEXT,
  PRIMARY KEY (recording, number)
) STRICT, WITHOUT ROWID;

CREATE TABLE clips (
  recording INTEGER NOT NULL REFERENCES recordings ON DELETE CASCADE,
  number INTEGER NOT NULL,
  package INTEGER NOT NULL, track INTEGER NOT NULL,
  start INTEGER, duration INTEGER, of_uid TEXT NOT NULL, of_track INTEGER NOT NULL, of_position INTEGER NOT NULL,
  PRIMARY KEY (recording, number)
) STRICT, WITHOUT ROWID;
CREATE INDEX clips_uid ON clips (substr(of_uid, -16), of_uid);

CREATE TABLE timecodes (
  recording INTEGER NOT NULL REFERENCES recordings ON DELETE CASCADE,
  number INTEGER NOT NULL,
  package INTEGER NOT NULL, track INTEGER NOT NULL,
  start INTEGER, duration INTEGER, at TEXT, base INTEGER NOT NULL,
  PRIMARY KEY (recording, number)
) STRICT, WITHOUT ROWID;

CREATE TABLE pictures (
  recording INTEGER NOT NULL REFERENCES recordings ON DELETE CASCADE,
  number INTEGER NOT NULL,
  package INTEGER NOT NULL, track INTEGER, rate TEXT, container TEXT,
  width INTEGER, height INTEGER, display_width INTEGER, display_height INTEGER, layout INTEGER, aspect TEXT,
  depth INTEGER, coding TEXT,
  PRIMARY KEY (recording, number)
) STRICT, WITHOUT ROWID;

CREATE TABLE sounds (
  recording INTEGER NOT NULL REFERENCES recordings ON DELETE CASCADE,
  number INTEGER NOT NULL,
  package INTEGER NOT NULL, track INTEGER, container TEXT, rate TEXT, channels INTEGER, bits INTEGER, coding TEXT,
  PRIMARY KEY (recording, number)
) STRICT, WITHOUT ROWID;

CREATE TABLE clocks (
  recording INTEGER NOT NULL REFERENCES recordings ON DELETE CASCADE,
  number INTEGER NOT NULL,
  index_sid INTEGER NOT NULL, position INTEGER NOT NULL, count INTEGER, first TEXT NOT NULL, last TEXT,
  base INTEGER NOT NULL, told_by TEXT NOT NULL,
  PRIMARY KEY (recording, number)
) STRICT, WITHOUT ROWID;

CREATE TABLE hours (
  recording INTEGER NOT NULL REFERENCES recordings ON DELETE CASCADE,
  number INTEGER NOT NULL,
  clock INTEGER, timecode INTEGER,
  hour INTEGER NOT NULL, first TEXT NOT NULL, last TEXT NOT NULL,
  base INTEGER NOT NULL, is_drop INTEGER NOT NULL, is_open INTEGER NOT NULL,
  PRIMARY KEY (recording, number)
) STRICT, WITHOUT ROWID;
CREATE INDEX hours_hour ON hours (hour, first, last);

CREATE TABLE partitions (
  recording INTEGER NOT NULL REFERENCES recordings ON DELETE CASCADE,
  "offset" INTEGER NOT NULL,
  part TEXT NOT NULL, status TEXT NOT NULL, version TEXT NOT NULL, kag INTEGER NOT NULL,
  this ANY NOT NULL, previous ANY NOT NULL, footer ANY NOT NULL, header_bytes ANY NOT NULL, index_bytes ANY NOT NULL,
  index_sid INTEGER NOT NULL, body_offset ANY NOT NULL, body_sid INTEGER NOT NULL, pattern TEXT NOT NULL, link TEXT NOT NULL,
  PRIMARY KEY (recording, "offset")
) STRICT, WITHOUT ROWID;

CREATE TABLE indexes (
  recording INTEGER NOT NULL REFERENCES recordings ON DELETE CASCADE,
  index_sid INTEGER NOT NULL,
  units INTEGER, held INTEGER, hand INTEGER, said TEXT,
  PRIMARY KEY (recording, index_sid)
) STRICT, WITHOUT ROWID;

CREATE TABLE findings (
  recording INTEGER NOT NULL REFERENCES recordings ON DELETE CASCADE,
  number INTEGER NOT NULL,
  code TEXT NOT NULL, "offset" ANY NOT NULL, text TEXT NOT NULL,
  PRIMARY KEY (recording, number)
) STRICT, WITHOUT ROWID;
CREATE INDEX findings_code ON findings (code, recording);

CREATE TABLE orders (
  recording INTEGER NOT NULL REFERENCES recordings ON DELETE CASCADE,
  number INTEGER NOT NULL,
  start ANY NOT NULL, "end" ANY, length ANY, reason TEXT NOT NULL, pack INTEGER,
  is_inside INTEGER NOT NULL, is_again INTEGER NOT NULL,
  PRIMARY KEY (recording, number)
) STRICT, WITHOUT ROWID;
CREATE INDEX orders_start ON orders (start, recording);

CREATE TABLE disputes (
  recording INTEGER NOT NULL REFERENCES recordings ON DELETE CASCADE,
  number INTEGER NOT NULL,
  "offset" INTEGER NOT NULL, "end" INTEGER NOT NULL, kind TEXT NOT NULL, width INTEGER NOT NULL, length INTEGER NOT NULL,
  key TEXT NOT NULL, is_head INTEGER NOT NULL,
  PRIMARY KEY (recording, number)
) STRICT, WITHOUT ROWID;

CREATE TABLE verifications (
  recording INTEGER NOT NULL REFERENCES recordings ON DELETE CASCADE,
  number INTEGER NOT NULL,
  verified TEXT NOT NULL, program TEXT NOT NULL, against TEXT NOT NULL,
  packets INTEGER NOT NULL, all_packets INTEGER NOT NULL, bytes ANY NOT NULL, all_bytes ANY NOT NULL,
  differs INTEGER NOT NULL, cut INTEGER NOT NULL, unknown ANY NOT NULL,
  PRIMARY KEY (recording, number)
) STRICT, WITHOUT ROWID;

CREATE TABLE differences (
  recording INTEGER NOT NULL,
  verification INTEGER NOT NULL,
  number INTEGER NOT NULL,
  what TEXT NOT NULL, source TEXT, start INTEGER NOT NULL, "end" INTEGER NOT NULL, kind TEXT, key TEXT,
  PRIMARY KEY (recording, verification, number),
  FOREIGN KEY (recording, verification) REFERENCES verifications ON DELETE CASCADE
) STRICT, WITHOUT ROWID;

CREATE TABLE identifiers (
  uid BLOB NOT NULL,
  what TEXT NOT NULL,
  recording INTEGER NOT NULL REFERENCES recordings ON DELETE CASCADE,
  PRIMARY KEY (uid, what, recording)
) STRICT, WITHOUT ROWID;
CREATE INDEX identifiers_recording ON identifiers (recording);

CREATE TABLE texts (
  id INTEGER PRIMARY KEY,
  recording INTEGER NOT NULL REFERENCES recordings ON DELETE CASCADE,
  what TEXT NOT NULL, text TEXT NOT NULL
) STRICT;
CREATE INDEX texts_recording ON texts (recording);

CREATE VIEW lacking AS
  SELECT r.name AS recording, s.missing, s.orders, s.ordered, s.open
  FROM recordings r JOIN states s ON s.recording = r.id AND s.number = r.state
  WHERE r.is_missing = 1;
CREATE VIEW restores AS
  SELECT r.name AS recording, o.number, o.start, o."end", o.length, o.reason, o.pack, o.is_inside, o.is_again
  FROM orders o JOIN recordings r ON r.id = o.recording;
CREATE VIEW disputed AS
  SELECT r.name AS recording, d."offset", d."end", d.kind, d.length, d.key, d.is_head
  FROM recordings r JOIN disputes d ON d.recording = r.id
  WHERE r.is_disputed = 1;
CREATE VIEW changed AS
  SELECT r.name AS recording, a.gathered AS first_day, z.gathered AS last_day,
    z.packets - a.packets AS packets, z.held - a.held AS held, z.missing - a.missing AS missing,
    z.findings - a.findings AS findings, z.disputes - a.disputes AS disputes, z.orders - a.orders AS orders
  FROM recordings r JOIN states a ON a.recording = r.id AND a.number = 1
    JOIN states z ON z.recording = r.id AND z.number = r.state
  WHERE r.is_changed = 1;
CREATE VIEW fixity AS
  SELECT r.name AS recording, r.verified FROM recordings r;
CREATE VIEW umids AS
  SELECT p.uid, substr(p.uid, -16) AS uid_end, r.name AS recording, p.kind || ' package' AS what, p.name
    FROM packages p JOIN recordings r ON r.id = p.recording
  UNION ALL
  SELECT c.of_uid, substr(c.of_uid, -16), r.name, 'clip', NULL FROM clips c JOIN recordings r ON r.id = c.recording;
CREATE VIEW times AS
  SELECT h.hour, h.first, h.last, h.base, h.is_drop, h.is_open, r.name AS recording, c.index_sid, p.name AS package, t.track
  FROM hours h JOIN recordings r ON r.id = h.recording
    LEFT JOIN clocks c ON c.recording = h.recording AND c.number = h.clock
    LEFT JOIN timecodes t ON t.recording = h.recording AND t.number = h.timecode
    LEFT JOIN packages p ON p.recording = h.recording AND p.number = t.package;
CREATE VIEW history AS
  SELECT r.name AS recording, s.number, s.gathered, s.program, s.is_skim, s.packets, s."end", s.held, s.hand, s.missing,
    s.findings, s.disputes, s.orders, s.ordered, s.open
  FROM recordings r JOIN states s ON s.recording = r.id;
