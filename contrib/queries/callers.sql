-- Who is a caller, of which department, with which rights. Closed callers can do nothing, and come last.
WITH named(bit, name) AS (
    VALUES (1, 'admin'), (2, 'config'), (4, 'put'), (8, 'retain'), (16, 'hold'), (32, 'get'), (64, 'list'),
        (128, 'delete'), (256, 'delete-version'), (512, 'run'), (1024, 'report'), (2048, 'bypass')
)
SELECT
    name AS caller,
    coalesce(dept, '-') AS department,
    iif(closed, 'closed', 'open') AS state,
    (SELECT coalesce(group_concat(name, ' '), '-')
     FROM (SELECT name FROM named WHERE rights & bit ORDER BY bit)) AS rights
FROM callers
ORDER BY closed, department, caller;
