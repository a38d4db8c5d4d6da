-- The tables of a season and what is reckoned of them. A side's name and a player's name in it say who a player is. SQLite reads it as
-- it stands; PostgreSQL once engines.py has put in its own words for a number with a fraction and for what a deletion takes along.

CREATE TABLE matches (
    id INTEGER PRIMARY KEY,
    number TEXT NOT NULL,               -- the match number of the sheet
    home TEXT NOT NULL,
    away TEXT NOT NULL,
    title TEXT NOT NULL,
    day TEXT,                           -- the first of [info] dates, where the sheet tells it
    venue TEXT,
    result TEXT NOT NULL,               -- won, tied, drawn, no result, unfinished; by the sheet's outcome, or else by the Laws
    winner TEXT,
    words TEXT NOT NULL,                -- "Birch won by 3 wickets"
    folder TEXT NOT NULL,
    files TEXT NOT NULL,                -- the hash of its sheet and its two votes files
    UNIQUE (number, home, away)
);

CREATE TABLE players (team TEXT NOT NULL, player TEXT NOT NULL, PRIMARY KEY (team, player));

-- who stood on the sheet of a match
CREATE TABLE appearances (
    match INTEGER NOT NULL, team TEXT NOT NULL, player TEXT NOT NULL, number INTEGER NOT NULL,
    PRIMARY KEY (match, team, number)
);

CREATE TABLE innings (
    match INTEGER NOT NULL, innings INTEGER NOT NULL, team TEXT NOT NULL, fielding TEXT NOT NULL,
    runs INTEGER NOT NULL, wickets INTEGER NOT NULL, overs TEXT NOT NULL, balls INTEGER NOT NULL,
    byes INTEGER NOT NULL, legbyes INTEGER NOT NULL, wides INTEGER NOT NULL, noballs INTEGER NOT NULL, penalty INTEGER NOT NULL,
    target INTEGER,
    most_overs INTEGER,                 -- how many it may have, where the sheet tells it
    ended TEXT,                         -- allout, nobatter, declared, forfeited, overs
    PRIMARY KEY (match, innings)
);

CREATE TABLE deliveries (
    match INTEGER NOT NULL, innings INTEGER NOT NULL,
    number INTEGER NOT NULL,            -- in the innings, from 1
    over INTEGER NOT NULL,              -- from 0
    ball INTEGER NOT NULL,              -- in the over, from 1, wides and no-balls too
    team TEXT NOT NULL, fielding TEXT NOT NULL,
    striker TEXT NOT NULL, non_striker TEXT NOT NULL, bowler TEXT NOT NULL,
    runs_off_bat INTEGER NOT NULL, wides INTEGER NOT NULL, noballs INTEGER NOT NULL, byes INTEGER NOT NULL, legbyes INTEGER NOT NULL,
    penalty INTEGER NOT NULL,           -- awarded behind this delivery
    total INTEGER NOT NULL,
    boundary INTEGER,                   -- 4 or 6, off the bat
    counts INTEGER NOT NULL,            -- whether it counts in the over
    PRIMARY KEY (match, innings, number)
);

-- the rows of the printed cards
CREATE TABLE batters (
    match INTEGER NOT NULL, innings INTEGER NOT NULL, place INTEGER NOT NULL, team TEXT NOT NULL, player TEXT NOT NULL,
    how TEXT NOT NULL, is_out INTEGER NOT NULL,
    runs INTEGER NOT NULL, balls INTEGER NOT NULL, fours INTEGER NOT NULL, sixes INTEGER NOT NULL,
    PRIMARY KEY (match, innings, place)
);

CREATE TABLE bowlers (
    match INTEGER NOT NULL, innings INTEGER NOT NULL, place INTEGER NOT NULL, team TEXT NOT NULL, player TEXT NOT NULL,
    balls INTEGER NOT NULL,             -- that count in the over
    maidens INTEGER NOT NULL, runs INTEGER NOT NULL, wickets INTEGER NOT NULL, wides INTEGER NOT NULL, noballs INTEGER NOT NULL,
    PRIMARY KEY (match, innings, place)
);

CREATE TABLE dismissals (
    match INTEGER NOT NULL, innings INTEGER NOT NULL, wicket INTEGER NOT NULL, team TEXT NOT NULL, fielding TEXT NOT NULL,
    player_dismissed TEXT NOT NULL, wicket_type TEXT NOT NULL,
    bowler TEXT,                        -- whose wicket it is, where it is a bowler's
    fielder TEXT, is_substitute INTEGER NOT NULL,
    score INTEGER NOT NULL,             -- the innings' total then
    delivery INTEGER,                   -- the number of the last one bowled then, where there was one
    PRIMARY KEY (match, innings, wicket)
);

-- two batters together, from when the second came in until one left; where one retired hurt a wicket has more than one
CREATE TABLE stands (
    match INTEGER NOT NULL, innings INTEGER NOT NULL, place INTEGER NOT NULL, wicket INTEGER NOT NULL, team TEXT NOT NULL,
    first TEXT NOT NULL, second TEXT, runs INTEGER NOT NULL, balls INTEGER NOT NULL,
    is_unbroken INTEGER NOT NULL,
    PRIMARY KEY (match, innings, place)
);

-- a match that is deleted takes all its rows with it
CREATE TRIGGER forgotten AFTER DELETE ON matches BEGIN
    DELETE FROM appearances WHERE match = old.id;
    DELETE FROM innings WHERE match = old.id;
    DELETE FROM deliveries WHERE match = old.id;
    DELETE FROM batters WHERE match = old.id;
    DELETE FROM bowlers WHERE match = old.id;
    DELETE FROM dismissals WHERE match = old.id;
    DELETE FROM stands WHERE match = old.id;
    DELETE FROM players WHERE (team, player) NOT IN (SELECT team, player FROM appearances);
END;

-- which folders of the last reading aren't in the tables as they are now, and why
CREATE TABLE left_out (folder TEXT PRIMARY KEY, why TEXT NOT NULL);

-- the league's own: what a result is worth, and points given or taken otherwise
CREATE TABLE points (result TEXT PRIMARY KEY, points REAL NOT NULL);
INSERT INTO points VALUES ('won', 2), ('tied', 1), ('drawn', 1), ('no result', 1), ('lost', 0);
CREATE TABLE adjustments (team TEXT NOT NULL, points REAL NOT NULL, why TEXT NOT NULL);

CREATE VIEW batting AS
SELECT team, player, matches, innings, not_out, runs, (best / 2) || CASE best % 2 WHEN 1 THEN '*' ELSE '' END AS highest,
    round(1.0 * runs / nullif(innings - not_out, 0), 2) AS average, balls,
    round(100.0 * runs / nullif(balls, 0), 2) AS strike_rate, hundreds, fifties, ducks, fours, sixes
FROM (
    SELECT team, player, count(*) AS innings, sum(1 - is_out) AS not_out, sum(runs) AS runs, max(2 * runs + 1 - is_out) AS best,
        sum(balls) AS balls, count(*) FILTER (WHERE runs >= 100) AS hundreds,
        count(*) FILTER (WHERE runs BETWEEN 50 AND 99) AS fifties, count(*) FILTER (WHERE is_out = 1 AND runs = 0) AS ducks, sum(fours) AS fours, sum(sixes) AS sixes
    FROM batters GROUP BY team, player
) AS b JOIN (SELECT team, player, count(*) AS matches FROM appearances GROUP BY team, player) AS a USING (team, player)
ORDER BY runs DESC, innings, team, player;

-- the best bowling is that of an innings: most wickets, and of these fewest runs
CREATE VIEW bowling AS
SELECT team, player, matches, (balls / 6) || '.' || (balls % 6) AS overs, balls, maidens, runs, wickets,
    (best / 100000) || '/' || (99999 - best % 100000) AS best, round(1.0 * runs / nullif(wickets, 0), 2) AS average,
    round(6.0 * runs / nullif(balls, 0), 2) AS economy, round(1.0 * balls / nullif(wickets, 0), 2) AS strike_rate, fives, wides, noballs
FROM (
    SELECT team, player, sum(balls) AS balls, sum(maidens) AS maidens, sum(runs) AS runs, sum(wickets) AS wickets,
        max(100000 * wickets + 99999 - runs) AS best, count(*) FILTER (WHERE wickets >= 5) AS fives, sum(wides) AS wides, sum(noballs) AS noballs
    FROM bowlers GROUP BY team, player
) AS b JOIN (SELECT team, player, count(*) AS matches FROM appearances GROUP BY team, player) AS a USING (team, player)
ORDER BY wickets DESC, runs, team, player;

CREATE VIEW fielding AS
SELECT fielding AS team, fielder AS player, count(*) AS dismissals,
    count(*) FILTER (WHERE wicket_type IN ('caught', 'caught and bowled')) AS catches,
    count(*) FILTER (WHERE wicket_type = 'stumped') AS stumpings, count(*) FILTER (WHERE wicket_type = 'run out') AS run_outs
FROM dismissals WHERE fielder IS NOT NULL AND wicket_type IN ('caught', 'caught and bowled', 'stumped', 'run out')
GROUP BY fielding, fielder ORDER BY dismissals DESC, team, player;

CREATE VIEW partnerships AS
SELECT s.team, wicket, first || ' and ' || coalesce(second, 'nobody') AS batters, runs || CASE is_unbroken WHEN 1 THEN '*' ELSE '' END AS partnership,
    balls, day, title, runs, is_unbroken
FROM stands s JOIN matches m ON m.id = s.match ORDER BY runs DESC, is_unbroken DESC, balls, day NULLS FIRST, number, innings, place;

-- a row for each side of each match that has a result
CREATE VIEW results AS
SELECT match, team, other, CASE WHEN result <> 'won' THEN result WHEN winner = team THEN 'won' ELSE 'lost' END AS result FROM (
    SELECT id AS match, home AS team, away AS other, result, winner FROM matches
    UNION ALL SELECT id, away, home, result, winner FROM matches
) AS sides WHERE result <> 'unfinished';

-- runs and overs of matches of limited overs that were won or tied: a side that is all out has had all its overs
CREATE VIEW rates AS
SELECT i.team, i.fielding, i.runs, CASE WHEN i.ended IN ('allout', 'nobatter') THEN 6 * i.most_overs ELSE i.balls END / 6.0 AS overs
FROM innings i JOIN matches m ON m.id = i.match WHERE i.most_overs IS NOT NULL AND m.result IN ('won', 'tied');

CREATE VIEW "table" AS
SELECT team, count(*) AS played, count(*) FILTER (WHERE result = 'won') AS won, count(*) FILTER (WHERE result = 'lost') AS lost,
    count(*) FILTER (WHERE result = 'tied') AS tied, count(*) FILTER (WHERE result IN ('drawn', 'no result')) AS drawn,
    round(sum(p.points) + coalesce((SELECT sum(a.points) FROM adjustments a WHERE a.team = r.team), 0), 2) AS points,
    round((SELECT sum(runs) / sum(overs) FROM rates WHERE team = r.team) - (SELECT sum(runs) / sum(overs) FROM rates WHERE fielding = r.team), 2) AS run_rate
FROM results r JOIN points p USING (result) GROUP BY team ORDER BY points DESC, won DESC, run_rate DESC NULLS LAST, team;
