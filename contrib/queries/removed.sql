-- The versions that were removed from the moment :since on and before :before, by rising id: the register without
-- delete markers. Left out, :since is the vault's beginning and :before its end. A date alone is its midnight; all in UTC.
WITH
given(name, at, kind) AS (
    VALUES
        (':since', :since || iif(:since GLOB '????-??-??', 'T00:00:00Z', ''), typeof(:since)),
        (':before', :before || iif(:before GLOB '????-??-??', 'T00:00:00Z', ''), typeof(:before))
),
-- What is neither a date nor a moment ends the query with an error; CROSS JOIN has SQLite look at it first.
asked(since, before) AS MATERIALIZED (
    SELECT max(t) FILTER (WHERE name = ':since'), max(t) FILTER (WHERE name = ':before')
    FROM (
        SELECT name, CASE
            WHEN at IS NULL THEN NULL
            WHEN at = strftime('%Y-%m-%dT%H:%M:%SZ', strftime('%s', at), 'unixepoch') THEN CAST(strftime('%s', at) AS INTEGER)
            ELSE json_extract(
                '{}',
                name || ' is neither a date as 2025-06-10 nor a moment as 2025-06-10T12:00:00Z: ' || at
                    || iif(kind = 'text', '', ', a number, as of a date that is not in two kinds of quotes')
            )
        END AS t
        FROM given
    )
)
SELECT
    id AS version,
    bucket,
    key,
    size,
    lower(hex(digest)) AS sha256,
    strftime('%Y-%m-%dT%H:%M:%SZ', admitted, 'unixepoch') AS admitted,
    admitted_by,
    strftime('%Y-%m-%dT%H:%M:%SZ', entries.removed, 'unixepoch') AS removed,
    CASE cause WHEN 0 THEN 'request' WHEN 1 THEN 'bypass' ELSE 'rule' END AS cause,
    cause_by,
    entries.removed / 86400 - entries.admitted / 86400 AS days
FROM asked
CROSS JOIN entries ON entries.removed >= coalesce(since, 0) AND (before IS NULL OR entries.removed < before)
WHERE NOT marker
ORDER BY id;
