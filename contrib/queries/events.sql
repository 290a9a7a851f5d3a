-- All that ever happened to each version and delete marker, by rising number: its admission, each setting of its retention
-- and its hold (`locked`), each move to another department, and its removal, with the columns of the events
-- (docs/formats/TEXTS.md). With :id, of that number alone; one that the vault doesn't have ends the query with an error. With
-- :before, what was before that moment; a date alone is its midnight, in UTC. Cells that don't apply are empty.
WITH
given(at) AS (SELECT :before || iif(:before GLOB '????-??-??', 'T00:00:00Z', '')),
-- What is neither a date nor a moment ends the query with an error; CROSS JOIN has SQLite look at it first.
asked(t, least, most) AS MATERIALIZED (
    SELECT
        CASE
            WHEN :before IS NULL THEN 253402300800
            WHEN at = strftime('%Y-%m-%dT%H:%M:%SZ', strftime('%s', at), 'unixepoch') THEN CAST(strftime('%s', at) AS INTEGER)
            ELSE json_extract(
                '{}',
                ':before is neither a date as 2025-06-10 nor a moment as 2025-06-10T12:00:00Z: ' || :before
                    || iif(typeof(:before) = 'text', '', ', a number, as of a date that is not in two kinds of quotes')
            )
        END,
        CASE
            WHEN :id IS NULL THEN 1
            ELSE coalesce(
                (SELECT id FROM entries WHERE id = :id AND CAST(id AS TEXT) = CAST(:id AS TEXT)),
                json_extract('{}', 'no version of this vault has the number :id, which is ' || :id)
            )
        END,
        coalesce(:id, 1000000000)
    FROM given
),
chosen AS (SELECT entries.* FROM asked CROSS JOIN entries ON id BETWEEN least AND CAST(most AS INTEGER)),
-- `turn` puts the events of one entry in their order
events(id, turn, n, event, moment, by, mode, until, hold, bypass, cause, department, move) AS (
    SELECT
        chosen.id, 1, 0, 'admitted', admitted, iif(by_rule, 'rule ', '') || admitted_by, '', '', '', '', '', coalesce(dept, ''), ''
    FROM chosen
    LEFT JOIN tenures ON tenures.id = chosen.id
        AND tenures.n = (SELECT min(n) FROM tenures AS any WHERE any.id = chosen.id)
    UNION ALL
    SELECT
        id, 2, n, 'locked', moment, caller,
        CASE mode WHEN 0 THEN '' WHEN 1 THEN 'GOVERNANCE' ELSE 'COMPLIANCE' END,
        coalesce(strftime('%Y-%m-%dT%H:%M:%SZ', until, 'unixepoch'), ''),
        iif(hold, 'ON', 'OFF'), iif(bypass, 'true', 'false'), '', '', ''
    FROM chosen
    JOIN settings USING (id)
    UNION ALL
    SELECT id, 3, n, 'moved', moment, '', '', '', '', '', '', dept, n
    FROM chosen
    JOIN tenures USING (id)
    WHERE n > (SELECT min(n) FROM tenures AS any WHERE any.id = chosen.id)
    UNION ALL
    SELECT
        id, 4, 0, 'removed', removed, cause_by, '', '', '', '',
        CASE cause WHEN 0 THEN 'request' WHEN 1 THEN 'bypass' ELSE 'rule' END, '', ''
    FROM chosen
    WHERE removed IS NOT NULL
)
SELECT
    events.id AS version,
    event,
    strftime('%Y-%m-%dT%H:%M:%SZ', moment, 'unixepoch') AS moment,
    by,
    bucket,
    key,
    iif(marker, 'marker', 'version') AS kind,
    size,
    lower(coalesce(hex(digest), '')) AS sha256,
    mode,
    until,
    hold,
    bypass,
    events.cause AS cause,
    department,
    move
FROM asked
CROSS JOIN events ON moment < t
JOIN entries ON entries.id = events.id
ORDER BY events.id, turn, n;
