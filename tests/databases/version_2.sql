-- A database that mxf_archive 1.3.0-dev made before version 3 of the schema: printed by `.dump` of sqlite3, with the numbers of its header.
PRAGMA journal_mode = WAL;
PRAGMA application_id = 1297630785;
PRAGMA user_version = 2;
PRAGMA foreign_keys=OFF;
BEGIN TRANSACTION;
CREATE TABLE recordings (
  id INTEGER PRIMARY KEY,
  name TEXT NOT NULL UNIQUE,
  state INTEGER NOT NULL,
  title TEXT, length TEXT, timecode TEXT,
  pattern TEXT, metadata TEXT, chain TEXT,
  is_missing INTEGER NOT NULL, is_damaged INTEGER NOT NULL, is_disputed INTEGER NOT NULL, is_changed INTEGER NOT NULL,
  verified TEXT NOT NULL
, listed TEXT NOT NULL DEFAULT '', listed_csv TEXT NOT NULL DEFAULT '', listed_json TEXT NOT NULL DEFAULT '') STRICT;
INSERT INTO recordings VALUES(1,'midnight',1,'Käse',NULL,NULL,NULL,NULL,NULL,0,0,0,0,'','-             -                        -              0       0         0         0  -','midnight,Käse,,,,0,0,0,0,','{"recording":"midnight","name":"Käse","length":null,"timecode":null,"end":null,"missing":0,"orders":0,"findings":0,"disputes":0,"verified":null}');
INSERT INTO recordings VALUES(2,'drop',1,'Cup Final 2026',NULL,NULL,NULL,NULL,NULL,0,0,0,0,'2026-01-05T00:00:00Z','-             -                        -              0       0         0         0  2026-01-05T00:00:00Z','drop,Cup Final 2026,,,,0,0,0,0,2026-01-05T00:00:00Z','{"recording":"drop","name":"Cup Final 2026","length":null,"timecode":null,"end":null,"missing":0,"orders":0,"findings":0,"disputes":0,"verified":"2026-01-05T00:00:00Z"}');
INSERT INTO recordings VALUES(3,'made 1',1,'Tape 00000 part 1','01:00:00.000','01:01:00:00','OP1a','finished','whole',0,0,0,0,'','01:00:00.000  01:01:00:00    80000001000              0       0         0         0  -','made 1,Tape 00000 part 1,01:00:00.000,01:01:00:00,80000001000,0,0,0,0,','{"recording":"made 1","name":"Tape 00000 part 1","length":"01:00:00.000","timecode":"01:01:00:00","end":80000001000,"missing":0,"orders":0,"findings":0,"disputes":0,"verified":null}');
INSERT INTO recordings VALUES(4,'made 10',2,'Tape 00001 part 2','01:00:00.000','10:10:00:00','OP1a','finished','whole',1,0,0,1,'','01:00:00.000  10:10:00:00  18446744073709551615  18446744073709551615       1         1         0  -','made 10,Tape 00001 part 2,01:00:00.000,10:10:00:00,18446744073709551615,18446744073709551615,1,1,0,','{"recording":"made 10","name":"Tape 00001 part 2","length":"01:00:00.000","timecode":"10:10:00:00","end":"18446744073709551615","missing":"18446744073709551615","orders":1,"findings":1,"disputes":0,"verified":null}');
CREATE TABLE states (
  recording INTEGER NOT NULL REFERENCES recordings ON DELETE CASCADE,
  number INTEGER NOT NULL,
  gathered TEXT NOT NULL, program TEXT NOT NULL, is_skim INTEGER NOT NULL,
  packets INTEGER NOT NULL, "end" ANY, held ANY NOT NULL, hand ANY NOT NULL, missing ANY NOT NULL,
  findings INTEGER NOT NULL, disputes INTEGER NOT NULL,
  orders INTEGER NOT NULL, ordered ANY NOT NULL, open INTEGER NOT NULL,
  PRIMARY KEY (recording, number)
) STRICT, WITHOUT ROWID;
INSERT INTO states VALUES(1,1,'2026-01-01T00:00:00Z','x',0,0,NULL,0,0,0,0,0,0,0,0);
INSERT INTO states VALUES(2,1,'2026-01-01T00:00:00Z','x',0,0,NULL,0,0,0,0,0,0,0,0);
INSERT INTO states VALUES(3,1,'2026-01-02T03:04:05Z','mxf_tool',0,270000,80000001000,80000001000,0,0,0,0,0,0,0);
INSERT INTO states VALUES(4,1,'2026-01-02T03:04:05Z','mxf_tool',0,270000,80000001000,80000000990,0,10,1,0,1,10,0);
INSERT INTO states VALUES(4,2,'2026-01-03T03:04:05Z','mxf_tool',0,270000,'18446744073709551615',80000000990,0,'18446744073709551615',1,0,1,10,0);
CREATE TABLE sources (
  recording INTEGER NOT NULL REFERENCES recordings ON DELETE CASCADE,
  number INTEGER NOT NULL,
  word TEXT NOT NULL, form TEXT NOT NULL, "offset" INTEGER, path TEXT NOT NULL,
  size INTEGER, modified TEXT, sha256 TEXT,
  PRIMARY KEY (recording, number)
) STRICT, WITHOUT ROWID;
INSERT INTO sources VALUES(3,0,'cat:/made/1.cat','cat',NULL,'/made/1.cat',1000,'2026-01-02T03:04:05Z','0000000000000000000000000000000000000000000000000000000000000000');
INSERT INTO sources VALUES(4,0,'cat:/made/10.cat','cat',NULL,'/made/10.cat',1000,'2026-01-02T03:04:05Z','0000000000000000000000000000000000000000000000000000000000000000');
CREATE TABLE stops (
  recording INTEGER NOT NULL REFERENCES recordings ON DELETE CASCADE,
  number INTEGER NOT NULL,
  source INTEGER NOT NULL, "offset" INTEGER NOT NULL, stop TEXT NOT NULL, at INTEGER,
  PRIMARY KEY (recording, number)
) STRICT, WITHOUT ROWID;
CREATE TABLE programs (
  recording INTEGER NOT NULL REFERENCES recordings ON DELETE CASCADE,
  number INTEGER NOT NULL,
  company TEXT, product TEXT, version TEXT, product_uid TEXT, generation TEXT, modified TEXT,
  PRIMARY KEY (recording, number)
) STRICT, WITHOUT ROWID;
INSERT INTO programs VALUES(3,1,NULL,'Recorder 1',NULL,NULL,NULL,NULL);
INSERT INTO programs VALUES(4,1,NULL,'Recorder 3',NULL,NULL,NULL,NULL);
CREATE TABLE packages (
  recording INTEGER NOT NULL REFERENCES recordings ON DELETE CASCADE,
  number INTEGER NOT NULL,
  kind TEXT NOT NULL, uid TEXT NOT NULL, name TEXT, created TEXT, body_sid INTEGER, index_sid INTEGER,
  PRIMARY KEY (recording, number)
) STRICT, WITHOUT ROWID;
INSERT INTO packages VALUES(1,1,'source','0000000000000000000000000000000000000000000000000000000000000007','Käse',NULL,NULL,NULL);
INSERT INTO packages VALUES(2,1,'source','0000000000000000000000000000000000000000000000000000000000000007','Cup Final 2026',NULL,NULL,NULL);
INSERT INTO packages VALUES(3,1,'material','060a2b340101010501010d000000000100000000000000000000000000000001','Tape 00000 part 1',NULL,NULL,NULL);
INSERT INTO packages VALUES(3,2,'source','060a2b340101010501010d000000000200000000000000000000000000000001','Tape 00000 part 1',NULL,1,2);
INSERT INTO packages VALUES(4,1,'material','060a2b340101010501010d00000000010000000000000000000000000000000a','Tape 00001 part 2',NULL,NULL,NULL);
INSERT INTO packages VALUES(4,2,'source','060a2b340101010501010d00000000020000000000000000000000000000000a','Tape 00001 part 2',NULL,1,2);
CREATE TABLE tracks (
  recording INTEGER NOT NULL REFERENCES recordings ON DELETE CASCADE,
  number INTEGER NOT NULL,
  package INTEGER NOT NULL,
  track INTEGER NOT NULL, kind TEXT, essence TEXT NOT NULL, rate TEXT NOT NULL, origin INTEGER NOT NULL,
  duration INTEGER, length TEXT, name TEXT,
  PRIMARY KEY (recording, number)
) STRICT, WITHOUT ROWID;
INSERT INTO tracks VALUES(3,1,1,1,'timecode','00000000','25/1',0,90000,'01:00:00.000',NULL);
INSERT INTO tracks VALUES(3,2,1,2,'picture','00000000','25/1',0,90000,'01:00:00.000',NULL);
INSERT INTO tracks VALUES(3,3,1,3,'sound','00000000','25/1',0,90000,'01:00:00.000',NULL);
INSERT INTO tracks VALUES(3,4,1,4,'sound','00000000','25/1',0,90000,'01:00:00.000',NULL);
INSERT INTO tracks VALUES(3,5,2,1,'timecode','00000000','25/1',0,90000,'01:00:00.000',NULL);
INSERT INTO tracks VALUES(3,6,2,2,'picture','00000000','25/1',0,90000,'01:00:00.000',NULL);
INSERT INTO tracks VALUES(3,7,2,3,'sound','00000000','25/1',0,90000,'01:00:00.000',NULL);
INSERT INTO tracks VALUES(3,8,2,4,'sound','00000000','25/1',0,90000,'01:00:00.000',NULL);
INSERT INTO tracks VALUES(4,1,1,1,'timecode','00000000','25/1',0,90000,'01:00:00.000',NULL);
INSERT INTO tracks VALUES(4,2,1,2,'picture','00000000','25/1',0,90000,'01:00:00.000',NULL);
INSERT INTO tracks VALUES(4,3,1,3,'sound','00000000','25/1',0,90000,'01:00:00.000',NULL);
INSERT INTO tracks VALUES(4,4,1,4,'sound','00000000','25/1',0,90000,'01:00:00.000',NULL);
INSERT INTO tracks VALUES(4,5,2,1,'timecode','00000000','25/1',0,90000,'01:00:00.000',NULL);
INSERT INTO tracks VALUES(4,6,2,2,'picture','00000000','25/1',0,90000,'01:00:00.000',NULL);
INSERT INTO tracks VALUES(4,7,2,3,'sound','00000000','25/1',0,90000,'01:00:00.000',NULL);
INSERT INTO tracks VALUES(4,8,2,4,'sound','00000000','25/1',0,90000,'01:00:00.000',NULL);
CREATE TABLE clips (
  recording INTEGER NOT NULL REFERENCES recordings ON DELETE CASCADE,
  number INTEGER NOT NULL,
  package INTEGER NOT NULL, track INTEGER NOT NULL,
  start INTEGER, duration INTEGER, of_uid TEXT NOT NULL, of_track INTEGER NOT NULL, of_position INTEGER NOT NULL,
  PRIMARY KEY (recording, number)
) STRICT, WITHOUT ROWID;
INSERT INTO clips VALUES(3,1,1,2,0,90000,'060a2b340101010501010d000000000200000000000000000000000000000001',2,0);
INSERT INTO clips VALUES(3,2,1,3,0,90000,'060a2b340101010501010d000000000200000000000000000000000000000001',3,0);
INSERT INTO clips VALUES(3,3,1,4,0,90000,'060a2b340101010501010d000000000200000000000000000000000000000001',4,0);
INSERT INTO clips VALUES(3,4,2,2,0,90000,'060a2b340101010501010d000000000200000000000000000000000000000001',2,0);
INSERT INTO clips VALUES(3,5,2,3,0,90000,'060a2b340101010501010d000000000200000000000000000000000000000001',3,0);
INSERT INTO clips VALUES(3,6,2,4,0,90000,'060a2b340101010501010d000000000200000000000000000000000000000001',4,0);
INSERT INTO clips VALUES(4,1,1,2,0,90000,'060a2b340101010501010d00000000020000000000000000000000000000000a',2,0);
INSERT INTO clips VALUES(4,2,1,3,0,90000,'060a2b340101010501010d00000000020000000000000000000000000000000a',3,0);
INSERT INTO clips VALUES(4,3,1,4,0,90000,'060a2b340101010501010d00000000020000000000000000000000000000000a',4,0);
INSERT INTO clips VALUES(4,4,2,2,0,90000,'060a2b340101010501010d00000000020000000000000000000000000000000a',2,0);
INSERT INTO clips VALUES(4,5,2,3,0,90000,'060a2b340101010501010d00000000020000000000000000000000000000000a',3,0);
INSERT INTO clips VALUES(4,6,2,4,0,90000,'060a2b340101010501010d00000000020000000000000000000000000000000a',4,0);
CREATE TABLE timecodes (
  recording INTEGER NOT NULL REFERENCES recordings ON DELETE CASCADE,
  number INTEGER NOT NULL,
  package INTEGER NOT NULL, track INTEGER NOT NULL,
  start INTEGER, duration INTEGER, at TEXT, base INTEGER NOT NULL,
  PRIMARY KEY (recording, number)
) STRICT, WITHOUT ROWID;
INSERT INTO timecodes VALUES(3,1,1,1,0,90000,'01:01:00:00',25);
INSERT INTO timecodes VALUES(3,2,2,1,0,90000,'01:01:00:00',25);
INSERT INTO timecodes VALUES(4,1,1,1,0,90000,'10:10:00:00',25);
INSERT INTO timecodes VALUES(4,2,2,1,0,90000,'10:10:00:00',25);
CREATE TABLE pictures (
  recording INTEGER NOT NULL REFERENCES recordings ON DELETE CASCADE,
  number INTEGER NOT NULL,
  package INTEGER NOT NULL, track INTEGER, rate TEXT, container TEXT,
  width INTEGER, height INTEGER, display_width INTEGER, display_height INTEGER, layout INTEGER, aspect TEXT,
  depth INTEGER, coding TEXT,
  PRIMARY KEY (recording, number)
) STRICT, WITHOUT ROWID;
CREATE TABLE sounds (
  recording INTEGER NOT NULL REFERENCES recordings ON DELETE CASCADE,
  number INTEGER NOT NULL,
  package INTEGER NOT NULL, track INTEGER, container TEXT, rate TEXT, channels INTEGER, bits INTEGER, coding TEXT,
  PRIMARY KEY (recording, number)
) STRICT, WITHOUT ROWID;
CREATE TABLE clocks (
  recording INTEGER NOT NULL REFERENCES recordings ON DELETE CASCADE,
  number INTEGER NOT NULL,
  index_sid INTEGER NOT NULL, position INTEGER NOT NULL, count INTEGER, first TEXT NOT NULL, last TEXT,
  base INTEGER NOT NULL, told_by TEXT NOT NULL,
  PRIMARY KEY (recording, number)
) STRICT, WITHOUT ROWID;
INSERT INTO clocks VALUES(1,1,2,0,500,'23:59:50:00','00:00:09:24',25,'source');
INSERT INTO clocks VALUES(2,1,2,0,4,'00:00:59;28','00:01:00;03',30,'source');
INSERT INTO clocks VALUES(3,1,2,0,90000,'01:01:00:00','02:00:59:24',25,'material');
INSERT INTO clocks VALUES(4,1,2,0,90000,'10:10:00:00','11:09:59:24',25,'material');
CREATE TABLE hours (
  recording INTEGER NOT NULL REFERENCES recordings ON DELETE CASCADE,
  number INTEGER NOT NULL,
  clock INTEGER, timecode INTEGER,
  hour INTEGER NOT NULL, first TEXT NOT NULL, last TEXT NOT NULL,
  base INTEGER NOT NULL, is_drop INTEGER NOT NULL, is_open INTEGER NOT NULL,
  PRIMARY KEY (recording, number)
) STRICT, WITHOUT ROWID;
INSERT INTO hours VALUES(1,1,1,NULL,23,'23:59:50:00','23:59:59:24',25,0,0);
INSERT INTO hours VALUES(1,2,1,NULL,0,'00:00:00:00','00:00:09:24',25,0,0);
INSERT INTO hours VALUES(2,1,1,NULL,0,'00:00:59:28','00:01:00:03',30,1,0);
INSERT INTO hours VALUES(3,1,NULL,1,1,'01:01:00:00','01:59:59:24',25,0,0);
INSERT INTO hours VALUES(3,2,NULL,1,2,'02:00:00:00','02:00:59:24',25,0,0);
INSERT INTO hours VALUES(3,3,NULL,2,1,'01:01:00:00','01:59:59:24',25,0,0);
INSERT INTO hours VALUES(3,4,NULL,2,2,'02:00:00:00','02:00:59:24',25,0,0);
INSERT INTO hours VALUES(3,5,1,NULL,1,'01:01:00:00','01:59:59:24',25,0,0);
INSERT INTO hours VALUES(3,6,1,NULL,2,'02:00:00:00','02:00:59:24',25,0,0);
INSERT INTO hours VALUES(4,1,NULL,1,10,'10:10:00:00','10:59:59:24',25,0,0);
INSERT INTO hours VALUES(4,2,NULL,1,11,'11:00:00:00','11:09:59:24',25,0,0);
INSERT INTO hours VALUES(4,3,NULL,2,10,'10:10:00:00','10:59:59:24',25,0,0);
INSERT INTO hours VALUES(4,4,NULL,2,11,'11:00:00:00','11:09:59:24',25,0,0);
INSERT INTO hours VALUES(4,5,1,NULL,10,'10:10:00:00','10:59:59:24',25,0,0);
INSERT INTO hours VALUES(4,6,1,NULL,11,'11:00:00:00','11:09:59:24',25,0,0);
CREATE TABLE partitions (
  recording INTEGER NOT NULL REFERENCES recordings ON DELETE CASCADE,
  "offset" INTEGER NOT NULL,
  part TEXT NOT NULL, status TEXT NOT NULL, version TEXT NOT NULL, kag INTEGER NOT NULL,
  this ANY NOT NULL, previous ANY NOT NULL, footer ANY NOT NULL, header_bytes ANY NOT NULL, index_bytes ANY NOT NULL,
  index_sid INTEGER NOT NULL, body_offset ANY NOT NULL, body_sid INTEGER NOT NULL, pattern TEXT NOT NULL, link TEXT NOT NULL,
  PRIMARY KEY (recording, "offset")
) STRICT, WITHOUT ROWID;
INSERT INTO partitions VALUES(3,0,'body','closed-complete','1.3',512,0,0,80000000000,0,0,0,0,1,'OP1a 09','held');
INSERT INTO partitions VALUES(3,10000000000,'body','closed-complete','1.3',512,10000000000,0,80000000000,0,0,0,0,1,'OP1a 09','held');
INSERT INTO partitions VALUES(3,20000000000,'body','closed-complete','1.3',512,20000000000,0,80000000000,0,0,0,0,1,'OP1a 09','held');
INSERT INTO partitions VALUES(3,30000000000,'body','closed-complete','1.3',512,30000000000,0,80000000000,0,0,0,0,1,'OP1a 09','held');
INSERT INTO partitions VALUES(3,40000000000,'body','closed-complete','1.3',512,40000000000,0,80000000000,0,0,0,0,1,'OP1a 09','held');
INSERT INTO partitions VALUES(3,50000000000,'body','closed-complete','1.3',512,50000000000,0,80000000000,0,0,0,0,1,'OP1a 09','held');
INSERT INTO partitions VALUES(3,60000000000,'body','closed-complete','1.3',512,60000000000,0,80000000000,0,0,0,0,1,'OP1a 09','held');
INSERT INTO partitions VALUES(3,70000000000,'body','closed-complete','1.3',512,70000000000,0,80000000000,0,0,0,0,1,'OP1a 09','held');
INSERT INTO partitions VALUES(4,0,'body','closed-complete','1.3',512,0,0,80000000000,0,0,0,0,1,'OP1a 09','held');
INSERT INTO partitions VALUES(4,10000000000,'body','closed-complete','1.3',512,10000000000,0,80000000000,0,0,0,0,1,'OP1a 09','held');
INSERT INTO partitions VALUES(4,20000000000,'body','closed-complete','1.3',512,20000000000,0,80000000000,0,0,0,0,1,'OP1a 09','held');
INSERT INTO partitions VALUES(4,30000000000,'body','closed-complete','1.3',512,30000000000,0,80000000000,0,0,0,0,1,'OP1a 09','held');
INSERT INTO partitions VALUES(4,40000000000,'body','closed-complete','1.3',512,40000000000,0,80000000000,0,0,0,0,1,'OP1a 09','held');
INSERT INTO partitions VALUES(4,50000000000,'body','closed-complete','1.3',512,50000000000,0,80000000000,0,0,0,0,1,'OP1a 09','held');
INSERT INTO partitions VALUES(4,60000000000,'body','closed-complete','1.3',512,60000000000,0,80000000000,0,0,0,0,1,'OP1a 09','held');
INSERT INTO partitions VALUES(4,70000000000,'body','closed-complete','1.3',512,70000000000,0,80000000000,0,0,0,0,1,'OP1a 09','held');
CREATE TABLE indexes (
  recording INTEGER NOT NULL REFERENCES recordings ON DELETE CASCADE,
  index_sid INTEGER NOT NULL,
  units INTEGER, held INTEGER, hand INTEGER, said TEXT,
  PRIMARY KEY (recording, index_sid)
) STRICT, WITHOUT ROWID;
INSERT INTO indexes VALUES(3,2,90000,90000,0,NULL);
INSERT INTO indexes VALUES(4,2,90000,90000,0,NULL);
CREATE TABLE findings (
  recording INTEGER NOT NULL REFERENCES recordings ON DELETE CASCADE,
  number INTEGER NOT NULL,
  code TEXT NOT NULL, "offset" ANY NOT NULL, text TEXT NOT NULL,
  PRIMARY KEY (recording, number)
) STRICT, WITHOUT ROWID;
INSERT INTO findings VALUES(4,1,'F03',1000000000,'bytes not held');
CREATE TABLE orders (
  recording INTEGER NOT NULL REFERENCES recordings ON DELETE CASCADE,
  number INTEGER NOT NULL,
  start ANY NOT NULL, "end" ANY, length ANY, reason TEXT NOT NULL, pack INTEGER,
  is_inside INTEGER NOT NULL, is_again INTEGER NOT NULL,
  PRIMARY KEY (recording, number)
) STRICT, WITHOUT ROWID;
INSERT INTO orders VALUES(4,1,1000000000,1000000010,10,'gap',NULL,1,0);
CREATE TABLE disputes (
  recording INTEGER NOT NULL REFERENCES recordings ON DELETE CASCADE,
  number INTEGER NOT NULL,
  "offset" INTEGER NOT NULL, "end" INTEGER NOT NULL, kind TEXT NOT NULL, width INTEGER NOT NULL, length INTEGER NOT NULL,
  key TEXT NOT NULL, is_head INTEGER NOT NULL,
  PRIMARY KEY (recording, number)
) STRICT, WITHOUT ROWID;
CREATE TABLE verifications (
  recording INTEGER NOT NULL REFERENCES recordings ON DELETE CASCADE,
  number INTEGER NOT NULL,
  verified TEXT NOT NULL, program TEXT NOT NULL, against TEXT NOT NULL,
  packets INTEGER NOT NULL, all_packets INTEGER NOT NULL, bytes ANY NOT NULL, all_bytes ANY NOT NULL,
  differs INTEGER NOT NULL, cut INTEGER NOT NULL, unknown ANY NOT NULL,
  PRIMARY KEY (recording, number)
) STRICT, WITHOUT ROWID;
INSERT INTO verifications VALUES(2,1,'2026-01-05T00:00:00Z','x','cat:/x',0,0,0,0,0,0,0);
CREATE TABLE differences (
  recording INTEGER NOT NULL,
  verification INTEGER NOT NULL,
  number INTEGER NOT NULL,
  what TEXT NOT NULL, source TEXT, start INTEGER NOT NULL, "end" INTEGER NOT NULL, kind TEXT, key TEXT,
  PRIMARY KEY (recording, verification, number),
  FOREIGN KEY (recording, verification) REFERENCES verifications ON DELETE CASCADE
) STRICT, WITHOUT ROWID;
CREATE TABLE identifiers (
  uid BLOB NOT NULL,
  what TEXT NOT NULL,
  recording INTEGER NOT NULL REFERENCES recordings ON DELETE CASCADE,
  PRIMARY KEY (uid, what, recording)
) STRICT, WITHOUT ROWID;
INSERT INTO identifiers VALUES(X'00000000000000010000000000000001','instance',3);
INSERT INTO identifiers VALUES(X'00000000000000010000000000000002','instance',3);
INSERT INTO identifiers VALUES(X'00000000000000010000000000000003','instance',3);
INSERT INTO identifiers VALUES(X'00000000000000010000000000000004','instance',3);
INSERT INTO identifiers VALUES(X'00000000000000010000000000000005','instance',3);
INSERT INTO identifiers VALUES(X'00000000000000010000000000000006','instance',3);
INSERT INTO identifiers VALUES(X'00000000000000010000000000000007','instance',3);
INSERT INTO identifiers VALUES(X'00000000000000010000000000000008','instance',3);
INSERT INTO identifiers VALUES(X'00000000000000010000000000000009','instance',3);
INSERT INTO identifiers VALUES(X'0000000000000001000000000000000a','instance',3);
INSERT INTO identifiers VALUES(X'000000000000000a0000000000000001','instance',4);
INSERT INTO identifiers VALUES(X'000000000000000a0000000000000002','instance',4);
INSERT INTO identifiers VALUES(X'000000000000000a0000000000000003','instance',4);
INSERT INTO identifiers VALUES(X'000000000000000a0000000000000004','instance',4);
INSERT INTO identifiers VALUES(X'000000000000000a0000000000000005','instance',4);
INSERT INTO identifiers VALUES(X'000000000000000a0000000000000006','instance',4);
INSERT INTO identifiers VALUES(X'000000000000000a0000000000000007','instance',4);
INSERT INTO identifiers VALUES(X'000000000000000a0000000000000008','instance',4);
INSERT INTO identifiers VALUES(X'000000000000000a0000000000000009','instance',4);
INSERT INTO identifiers VALUES(X'000000000000000a000000000000000a','instance',4);
CREATE TABLE texts (
  id INTEGER PRIMARY KEY,
  recording INTEGER NOT NULL REFERENCES recordings ON DELETE CASCADE,
  what TEXT NOT NULL, text TEXT NOT NULL
) STRICT;
INSERT INTO texts VALUES(1,1,'recording','midnight');
INSERT INTO texts VALUES(2,1,'package','Käse');
INSERT INTO texts VALUES(3,2,'recording','drop');
INSERT INTO texts VALUES(4,2,'package','Cup Final 2026');
INSERT INTO texts VALUES(5,3,'recording','made 1');
INSERT INTO texts VALUES(6,3,'product','Recorder 1');
INSERT INTO texts VALUES(7,3,'package','Tape 00000 part 1');
INSERT INTO texts VALUES(8,4,'recording','made 10');
INSERT INTO texts VALUES(9,4,'product','Recorder 3');
INSERT INTO texts VALUES(10,4,'package','Tape 00001 part 2');
CREATE TABLE words (
  word TEXT NOT NULL,
  text INTEGER NOT NULL REFERENCES texts ON DELETE CASCADE, found_in TEXT NOT NULL DEFAULT '', found_line TEXT NOT NULL DEFAULT '',
  PRIMARY KEY (word, text)
) STRICT, WITHOUT ROWID;
INSERT INTO words VALUES('00000',7,'made 1','name of package    Tape 00000 part 1');
INSERT INTO words VALUES('00001',10,'made 10','name of package    Tape 00001 part 2');
INSERT INTO words VALUES('1',5,'made 1','name of recording  made 1');
INSERT INTO words VALUES('1',6,'made 1','name of product    Recorder 1');
INSERT INTO words VALUES('1',7,'made 1','name of package    Tape 00000 part 1');
INSERT INTO words VALUES('10',8,'made 10','name of recording  made 10');
INSERT INTO words VALUES('2',10,'made 10','name of package    Tape 00001 part 2');
INSERT INTO words VALUES('2026',4,'drop','name of package    Cup Final 2026');
INSERT INTO words VALUES('3',9,'made 10','name of product    Recorder 3');
INSERT INTO words VALUES('cup',4,'drop','name of package    Cup Final 2026');
INSERT INTO words VALUES('drop',3,'drop','name of recording  drop');
INSERT INTO words VALUES('final',4,'drop','name of package    Cup Final 2026');
INSERT INTO words VALUES('kase',2,'midnight','name of package    Käse');
INSERT INTO words VALUES('made',5,'made 1','name of recording  made 1');
INSERT INTO words VALUES('made',8,'made 10','name of recording  made 10');
INSERT INTO words VALUES('midnight',1,'midnight','name of recording  midnight');
INSERT INTO words VALUES('part',7,'made 1','name of package    Tape 00000 part 1');
INSERT INTO words VALUES('part',10,'made 10','name of package    Tape 00001 part 2');
INSERT INTO words VALUES('recorder',6,'made 1','name of product    Recorder 1');
INSERT INTO words VALUES('recorder',9,'made 10','name of product    Recorder 3');
INSERT INTO words VALUES('tape',7,'made 1','name of package    Tape 00000 part 1');
INSERT INTO words VALUES('tape',10,'made 10','name of package    Tape 00001 part 2');
CREATE INDEX recordings_missing ON recordings (is_missing, name);
CREATE INDEX recordings_damaged ON recordings (is_damaged, name);
CREATE INDEX recordings_disputed ON recordings (is_disputed, name);
CREATE INDEX recordings_changed ON recordings (is_changed, name);
CREATE INDEX packages_uid ON packages (substr(uid, -16), uid);
CREATE INDEX clips_uid ON clips (substr(of_uid, -16), of_uid);
CREATE INDEX hours_hour ON hours (hour, first, last);
CREATE INDEX findings_code ON findings (code, recording);
CREATE INDEX orders_start ON orders (start, recording);
CREATE INDEX identifiers_recording ON identifiers (recording);
CREATE INDEX texts_recording ON texts (recording);
CREATE INDEX words_text ON words (text);
CREATE VIEW lacking AS
  SELECT r.name AS recording, s.missing, s.orders, s.ordered, s.open
  FROM recordings r JOIN states s ON s.recording = r.id AND s.number = r.state
  WHERE r.is_missing = 1;
CREATE VIEW restores AS
  SELECT r.name AS recording, o.number, o.start, o."end", o.length, o.reason, o.pack, o.is_inside, o.is_again
  FROM orders o JOIN recordings r ON r.id = o.recording;
CREATE VIEW damaged AS
  SELECT r.name AS recording, x.path, p."offset", p.stop AS what, p.at AS place
    FROM recordings r JOIN stops p ON p.recording = r.id JOIN sources x ON x.recording = r.id AND x.number = p.source
    WHERE r.is_damaged = 1
  UNION ALL
  SELECT r.name, NULL, NULL, f.code || ' ' || f.text, f."offset"
    FROM recordings r JOIN findings f ON f.recording = r.id
    WHERE r.is_damaged = 1 AND f.code IN ('F04', 'F10', 'F11')
  UNION ALL
  SELECT r.name, d.source, NULL, 'differs', d.start
    FROM recordings r JOIN differences d ON d.recording = r.id AND d.what = 'differs'
      AND d.verification = (SELECT max(v.number) FROM verifications v WHERE v.recording = r.id)
    WHERE r.is_damaged = 1;
CREATE VIEW disputed AS
  SELECT r.name AS recording, d."offset", d."end", d.kind, d.length, d.key, d.is_head
  FROM recordings r JOIN disputes d ON d.recording = r.id
  WHERE r.is_disputed = 1;
CREATE VIEW changed AS
  SELECT r.name AS recording, a.gathered AS first_day, z.gathered AS last_day,
    z.packets - a.packets AS packets, z.held - a.held AS held, z.missing - a.missing AS missing,
    z.findings - a.findings AS findings, z.disputes - a.disputes AS disputes, z.orders - a.orders AS orders
  FROM recordings r JOIN states a ON a.recording = r.id AND a.number = 1
    JOIN states z ON z.recording = r.id AND z.number = r.state
  WHERE r.is_changed = 1;
CREATE VIEW fixity AS
  SELECT r.name AS recording, r.verified FROM recordings r;
CREATE VIEW umids AS
  SELECT p.uid, substr(p.uid, -16) AS uid_end, r.name AS recording, p.kind || ' package' AS what, p.name
    FROM packages p JOIN recordings r ON r.id = p.recording
  UNION ALL
  SELECT c.of_uid, substr(c.of_uid, -16), r.name, 'clip', NULL FROM clips c JOIN recordings r ON r.id = c.recording;
CREATE VIEW times AS
  SELECT h.hour, h.first, h.last, h.base, h.is_drop, h.is_open, r.name AS recording, c.index_sid, p.name AS package, t.track
  FROM hours h JOIN recordings r ON r.id = h.recording
    LEFT JOIN clocks c ON c.recording = h.recording AND c.number = h.clock
    LEFT JOIN timecodes t ON t.recording = h.recording AND t.number = h.timecode
    LEFT JOIN packages p ON p.recording = h.recording AND p.number = t.package;
CREATE VIEW named AS
  SELECT w.word, t.what, t.text, r.name AS recording
  FROM words w JOIN texts t ON t.id = w.text JOIN recordings r ON r.id = t.recording;
CREATE VIEW history AS
  SELECT r.name AS recording, s.number, s.gathered, s.program, s.is_skim, s.packets, s."end", s.held, s.hand, s.missing,
    s.findings, s.disputes, s.orders, s.ordered, s.open
  FROM recordings r JOIN states s ON s.recording = r.id;
CREATE INDEX recordings_listed ON recordings (name, title, listed, listed_csv, listed_json);
CREATE INDEX recordings_verified ON recordings (verified, name, title, listed, listed_csv, listed_json);
CREATE INDEX recordings_name_length ON recordings (length(name));
CREATE INDEX recordings_title_length ON recordings (length(title));
COMMIT;
