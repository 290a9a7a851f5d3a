-- All that the vault has of one version, or of a delete marker, by its number :id: its admission, each setting of its
-- retention and its hold, each move to another department, and its removal. A number that the vault doesn't have ends the
-- query with an error.
WITH
asked(id) AS MATERIALIZED (
    SELECT coalesce(
        (SELECT id FROM entries WHERE CAST(id AS TEXT) = CAST(:id AS TEXT)),
        json_extract('{}', 'no version of this vault has the number :id, which is ' || coalesce(:id, 'left out'))
    )
),
entry AS (SELECT entries.* FROM asked JOIN entries USING (id)),
-- `turn` puts events of one moment in their order
events(moment, turn, n, event, by, detail) AS (
    SELECT
        admitted, 1, 0, 'admitted', iif(by_rule, 'rule ', '') || admitted_by,
        bucket || '/' || key || ': '
            || iif(marker, 'a delete marker', size || ' bytes of ' || dept || ', sha256 ' || lower(hex(digest)))
    FROM entry
    LEFT JOIN tenures ON tenures.id = entry.id AND n = 0
    UNION ALL
    SELECT
        moment, 2, n, 'locked', caller,
        CASE mode
            WHEN 0 THEN 'no retention'
            ELSE iif(mode = 1, 'GOVERNANCE', 'COMPLIANCE') || ' until ' || strftime('%Y-%m-%dT%H:%M:%SZ', until, 'unixepoch')
        END
            || ', hold ' || iif(hold, 'ON', 'OFF') || iif(bypass, ', by a bypass', '')
    FROM entry
    JOIN settings USING (id)
    UNION ALL
    SELECT moment, 3, n, 'moved', '-', 'to ' || dept || ', by move ' || n
    FROM entry
    JOIN tenures USING (id)
    WHERE n > 0
    UNION ALL
    SELECT removed, 4, 0, 'removed', cause_by, CASE cause WHEN 0 THEN 'request' WHEN 1 THEN 'bypass' ELSE 'rule' END
    FROM entry
    WHERE removed IS NOT NULL
)
SELECT strftime('%Y-%m-%dT%H:%M:%SZ', moment, 'unixepoch') AS moment, event, by, detail
FROM events
ORDER BY events.moment, turn, n;
