-- A loader sends one INSERT of three blocks, of two rows each. Its token names them, and a run that is stopped may have written some.
CREATE TABLE events (id UInt64, note String) ENGINE = MergeTree ORDER BY id
    SETTINGS non_replicated_deduplication_window = 100;
INSERT INTO events
    SETTINGS insert_deduplication_token = 'batch 7', max_insert_block_size = 2,
        min_insert_block_size_rows = 0, min_insert_block_size_bytes = 0
    VALUES (1, 'a'), (2, 'b'),
        (3, 'c'), (4, 'd'),
        (5, 'e'), (6, 'a long note, so that the part of this block is longer than one kibibyte so that the part of this block is longer than one kibibyte so that the part of this block is longer than one kibibyte so that the part of this block is longer than one kibibyte so that the part of this block is longer than one kibibyte so that the part of this block is longer than one kibibyte so that the part of this block is longer than one kibibyte so that the part of this block is longer than one kibibyte so that the part of this block is longer than one kibibyte so that the part of this block is longer than one kibibyte so that the part of this block is longer than one kibibyte so that the part of this block is longer than one kibibyte so that the part of this block is longer than one kibibyte so that the part of this block is longer than one kibibyte so that the part of this block is longer than one kibibyte so that the part of this block is longer than one kibibyte so that the part of this block is longer than one kibibyte so that the part of this block is longer than one kibibyte so that the part of this');
SHOW PARTS events;
