-- What a scan found of a recording of a folder, by which the next one knows whether it changed. It stands by its name: one
-- that couldn't be joined may have no row among the recordings.
CREATE TABLE scanned (
  name TEXT PRIMARY KEY,
  folder TEXT NOT NULL,       -- the folder that was scanned, from the root on
  files TEXT NOT NULL,        -- as JSON: of each file its form, its offset, its path there, its size, its time in nanoseconds
  status INTEGER NOT NULL,    -- of the join: 0, 1 it may be damaged, 3 or 4 it couldn't be joined; 1000 a call failed otherwise
  is_gone INTEGER NOT NULL    -- the last scan didn't find it
) STRICT, WITHOUT ROWID;
