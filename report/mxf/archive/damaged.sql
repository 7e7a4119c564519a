-- What is damaged, and what is in doubt, which isn't certain. Doubts stand among the findings, by codes of their own.
CREATE VIEW damaged AS
  SELECT r.name AS recording, x.path, p."offset", p.stop AS what, p.at AS place
    FROM recordings r JOIN stops p ON p.recording = r.id JOIN sources x ON x.recording = r.id AND x.number = p.source
    WHERE r.is_damaged = 1
  UNION ALL
  SELECT r.name, NULL, NULL, f.code || ' ' || f.text, f."offset"
    FROM recordings r JOIN findings f ON f.recording = r.id
    WHERE r.is_damaged = 1 AND f.code IN ('F04', 'F10', 'F11')
  UNION ALL
  SELECT r.name, NULL, NULL, 'doubt ' || f.code || ' ' || f.text, f."offset"
    FROM recordings r JOIN findings f ON f.recording = r.id
    WHERE f.code >= 'G' AND f.code < 'H'
  UNION ALL
  SELECT r.name, d.source, NULL, 'differs', d.start
    FROM recordings r JOIN differences d ON d.recording = r.id AND d.what = 'differs'
      AND d.verification = (SELECT max(v.number) FROM verifications v WHERE v.recording = r.id)
    WHERE r.is_damaged = 1;
