-- What a forger puts right after each change, so that its tables fit together: contents of held versions
-- alone, the heads, the next id, and the seven sums of each department.
DELETE FROM contents WHERE id NOT IN (SELECT id FROM entries WHERE removed IS NULL AND NOT marker);
DELETE FROM heads;
INSERT INTO heads SELECT bucket, key, max(id), count(*) FROM entries WHERE removed IS NULL GROUP BY bucket, key;
UPDATE meta SET next = (SELECT count(*) + 1 FROM entries);
WITH span AS (
    SELECT t.dept, e.size, t.moment / 86400 AS day, coalesce(lead(t.moment) OVER w, e.removed) / 86400 AS ended,
        lag(t.n) OVER w IS NULL AS is_first, lead(t.n) OVER w IS NULL AS is_last
    FROM tenures AS t JOIN entries AS e ON e.id = t.id WINDOW w AS (PARTITION BY t.id ORDER BY t.n)
)
UPDATE departments SET (admitted, held, removed, weighted, closed, received, handed) = (
    SELECT
        coalesce(sum(size * is_first), 0),
        coalesce(sum(size * (ended IS NULL)), 0),
        coalesce(sum(size * (ended IS NOT NULL AND is_last)), 0),
        coalesce(sum(size * day * (ended IS NULL)), 0),
        coalesce(sum(size * (ended - day)), 0),
        coalesce(sum(size * (NOT is_first)), 0),
        coalesce(sum(size * (ended IS NOT NULL AND NOT is_last)), 0)
    FROM span WHERE span.dept = departments.name
);
