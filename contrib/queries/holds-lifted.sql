-- Who lifted a legal hold, from which version, and since when it was on. What became of the version stands at the end.
SELECT
    strftime('%Y-%m-%dT%H:%M:%SZ', lifted.moment, 'unixepoch') AS lifted,
    lifted.caller AS lifted_by,
    bucket,
    key,
    lifted.id AS version,
    strftime('%Y-%m-%dT%H:%M:%SZ', placed.moment, 'unixepoch') AS placed,
    placed.caller AS placed_by,
    CASE
        WHEN removed IS NOT NULL THEN 'removed ' || strftime('%Y-%m-%dT%H:%M:%SZ', removed, 'unixepoch')
        WHEN last.hold THEN 'held, a hold is on again'
        ELSE 'held'
    END AS now
FROM settings AS lifted
JOIN settings AS before ON before.id = lifted.id AND before.n = lifted.n - 1 AND before.hold
-- the first setting with the hold on, after the last one with it off
JOIN settings AS placed ON placed.id = lifted.id
    AND placed.n = 1 + (
        SELECT coalesce(max(n), 0) FROM settings AS off
        WHERE off.id = lifted.id AND off.n < lifted.n AND NOT off.hold
    )
JOIN entries ON entries.id = lifted.id
JOIN settings AS last ON last.id = lifted.id AND last.n = (SELECT max(n) FROM settings AS any WHERE any.id = lifted.id)
WHERE NOT lifted.hold
ORDER BY lifted.moment, lifted.id;
