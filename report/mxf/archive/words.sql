-- The words of texts: runs of letters and digits, in small letters and without accents.
CREATE VIRTUAL TABLE words USING fts5 (
  text, content = 'texts', content_rowid = 'id', tokenize = 'unicode61 remove_diacritics 2'
);
CREATE VIRTUAL TABLE terms USING fts5vocab (words, instance);
CREATE TRIGGER texts_added AFTER INSERT ON texts BEGIN
  INSERT INTO words (rowid, text) VALUES (new.id, new.text);
END;
CREATE TRIGGER texts_removed AFTER DELETE ON texts BEGIN
  INSERT INTO words (words, rowid, text) VALUES ('delete', old.id, old.text);
END;
CREATE TRIGGER texts_changed AFTER UPDATE OF id, text ON texts BEGIN
  INSERT INTO words (words, rowid, text) VALUES ('delete', old.id, old.text);
  INSERT INTO words (rowid, text) VALUES (new.id, new.text);
END;
CREATE VIEW named AS
  SELECT DISTINCT w.term AS word, t.what, t.text, r.name AS recording
  FROM terms w JOIN texts t ON t.id = w.doc JOIN recordings r ON r.id = t.recording;
