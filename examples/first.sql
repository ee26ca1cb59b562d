CREATE TABLE visits (day UInt32, page String, new Bool) ENGINE = MergeTree ORDER BY (page, day)
    SETTINGS non_replicated_deduplication_window = 100;
INSERT INTO visits VALUES (2, 'home', TRUE), (1, 'it''s here', FALSE);
INSERT INTO visits (page, day) VALUES ('home', 1);
-- The same block again, as a loader sends it that did not see its reply: it is skipped.
INSERT INTO visits VALUES (2, 'home', TRUE), (1, 'it''s here', FALSE);
SELECT * FROM visits;
SHOW PARTS visits;
