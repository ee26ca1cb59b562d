-- Requests, and what is made of them by two views: how often each page was asked for, and the errors, with a copy of the line to search.
-- Each table keeps the ids of its last 100 blocks.
CREATE TABLE requests (page String, status UInt16, line String) ENGINE = MergeTree ORDER BY page
    SETTINGS non_replicated_deduplication_window = 100;
CREATE TABLE pages (page String, asked UInt64) ENGINE = MergeTree ORDER BY page
    SETTINGS non_replicated_deduplication_window = 100;
CREATE TABLE errors (status UInt16, line String, words String) ENGINE = MergeTree ORDER BY status
    SETTINGS non_replicated_deduplication_window = 100;
CREATE MATERIALIZED VIEW by_page TO pages AS SELECT page, count() AS asked FROM requests GROUP BY page;
CREATE MATERIALIZED VIEW failed TO errors AS SELECT status, line, line AS words FROM requests WHERE status >= 500;
