-- The rows after 34 messages of the story `failed-block`: the block's version has failed, and the next is being sent for
-- another holder.
BEGIN;
INSERT INTO block VALUES (2025337, 'BBBB', 4);
INSERT INTO version VALUES (1, 2025337001, 'BBBB', 'BBBB', 0, 2025330000, NULL, NULL, NULL, 'active', 'none', 0, 1, NULL, 0, 1, NULL, NULL, 2025337001, -2);
INSERT INTO version VALUES (2, 2025337002, 'BBBB', 'BBBB', 0, 2025330000, NULL, NULL, NULL, 'active', 'none', 0, 1, NULL, 0, 1, NULL, NULL, 2025337002, -3);
INSERT INTO version VALUES (3, 2025337, 'BBBB', 'CCCC', 22, 2025550000, NULL, NULL, NULL, 'failed', 'none', 37, 1, NULL, 0, 0, NULL, NULL, -4, -4);
INSERT INTO version VALUES (4, 2025337, 'BBBB', 'AAAA', 40, 2025440000, NULL, NULL, NULL, 'sending', 'create', 40, 1, NULL, 0, 0, NULL, 55, -5, 2025337);
INSERT INTO broadcast VALUES (4, 1, 40, 2025337, 'create', 2025440000, NULL, 1, 0);
INSERT INTO wait VALUES ('AAAA', 40, 4, 1, 2025337);
INSERT INTO wait VALUES ('BBBB', 40, 4, 1, 2025337);
INSERT INTO wait VALUES ('CCCC', 40, 4, 1, 2025337);
INSERT INTO clock VALUES (0, 40, 5, 60, 60, 30, 120, 1000, 60, 60, 500, 15);
COMMIT;
