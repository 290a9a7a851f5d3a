-- The versions and delete markers that are asked for, held and removed ones, by rising number. What is left out isn't asked.
--   :bucket   of that bucket
--   :prefix   whose key begins so, and :text in whose key that stands; letter by letter, with no signs for any letter
--   :sha256   whose content has that digest, or one that begins so, in hex digits
--   :since    admitted at that moment or later, and :before earlier than that; a date alone is its midnight; all in UTC
--   :state    'held' or 'removed'
WITH
given(name, at, kind) AS (
    VALUES
        (':since', :since || iif(:since GLOB '????-??-??', 'T00:00:00Z', ''), typeof(:since)),
        (':before', :before || iif(:before GLOB '????-??-??', 'T00:00:00Z', ''), typeof(:before))
),
-- What is neither a date nor a moment ends the query with an error; CROSS JOIN has SQLite look at it first.
asked(since, before) AS MATERIALIZED (
    SELECT max(t) FILTER (WHERE name = ':since'), max(t) FILTER (WHERE name = ':before')
    FROM (
        SELECT name, CASE
            WHEN at IS NULL THEN NULL
            WHEN at = strftime('%Y-%m-%dT%H:%M:%SZ', strftime('%s', at), 'unixepoch') THEN CAST(strftime('%s', at) AS INTEGER)
            ELSE json_extract(
                '{}',
                name || ' is neither a date as 2025-06-10 nor a moment as 2025-06-10T12:00:00Z: ' || at
                    || iif(kind = 'text', '', ', a number, as of a date that is not in two kinds of quotes')
            )
        END AS t
        FROM given
    )
)
SELECT
    id AS version,
    bucket,
    key,
    iif(marker, 'marker', 'version') AS kind,
    size,
    lower(coalesce(hex(digest), '')) AS sha256,
    strftime('%Y-%m-%dT%H:%M:%SZ', admitted, 'unixepoch') AS admitted,
    iif(by_rule, 'rule ', '') || admitted_by AS admitted_by,
    coalesce(strftime('%Y-%m-%dT%H:%M:%SZ', removed, 'unixepoch'), '') AS removed,
    CASE cause WHEN 0 THEN 'request' WHEN 1 THEN 'bypass' WHEN 2 THEN 'rule' ELSE '' END AS cause,
    coalesce(cause_by, '') AS cause_by
FROM asked
CROSS JOIN entries ON admitted >= coalesce(since, 0) AND (before IS NULL OR admitted < before)
WHERE (:bucket IS NULL OR bucket = :bucket)
    AND (:prefix IS NULL OR substr(key, 1, length(:prefix)) = :prefix)
    AND (:text IS NULL OR instr(key, :text) > 0)
    AND (:sha256 IS NULL OR substr(lower(hex(digest)), 1, length(:sha256)) = lower(:sha256))
    AND (:state IS NULL OR (removed IS NULL) = CASE :state
        WHEN 'held' THEN 1
        WHEN 'removed' THEN 0
        ELSE json_extract('{}', ':state is neither held nor removed: ' || :state)
    END)
ORDER BY id;
