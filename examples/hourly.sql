-- Requests to a site, and what they come to in each hour: how many, how many bytes, and how many users, as states that go on being joined.
CREATE TABLE hits (ts UInt32, page String, user UInt64, bytes UInt32) ENGINE = MergeTree ORDER BY (page, ts)
    SETTINGS non_replicated_deduplication_window = 1000;
CREATE TABLE hourly (hour UInt64, page String, n AggregateFunction(count), total AggregateFunction(sum, UInt32), users AggregateFunction(uniqExact, UInt64))
    ENGINE = AggregatingMergeTree ORDER BY (hour, page) SETTINGS non_replicated_deduplication_window = 1000;
CREATE MATERIALIZED VIEW each_hour TO hourly AS
    SELECT intDiv(ts, 3600) AS hour, page, countState() AS n, sumState(bytes) AS total, uniqExactState(user) AS users FROM hits GROUP BY hour, page;
INSERT INTO hits SETTINGS insert_deduplication_token = 'load-1', deduplicate_blocks_in_dependent_materialized_views = 1
    VALUES (3600, '/', 7, 100), (3700, '/', 8, 50), (7300, '/a', 7, 25);
-- The loader saw no reply, and sends its block again.
INSERT INTO hits SETTINGS insert_deduplication_token = 'load-1', deduplicate_blocks_in_dependent_materialized_views = 1
    VALUES (3600, '/', 7, 100), (3700, '/', 8, 50), (7300, '/a', 7, 25);
SELECT hour, page, countMerge(n), sumMerge(total), uniqExactMerge(users) FROM hourly GROUP BY hour, page ORDER BY hour;
