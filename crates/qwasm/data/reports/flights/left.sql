-- Ten reports on the flights with LEFT JOIN (ISO/IEC 9075:1992, 7.5).
-- left.report has the answers of PostgreSQL 15.18 over the same rows, in the form of docs/FORMATS.md: quotients and averages cut off at the scales of
-- docs/LANGUAGE.md, numbers printed at these, nulls below all values, texts by their octets (its collation C).

-- 1. Airlines without a flight
SELECT A.CODE, A.NAME
FROM AIRLINES A LEFT JOIN FLIGHTS F ON F.AIRLINE = A.CODE
WHERE F.ID IS NULL;

-- 2. Airports with the flights that begin there, none too
SELECT P.CODE, COUNT(F.ID) AS FLIGHTS
FROM AIRPORTS P LEFT JOIN FLIGHTS F ON F.ORIGIN = P.CODE
GROUP BY P.CODE
ORDER BY FLIGHTS, CODE;

-- 3. Passengers who have booked nothing
SELECT P.ID, P.NAME, P.TIER
FROM PASSENGERS P LEFT OUTER JOIN BOOKINGS B ON B.PASSENGER = P.ID
WHERE B.ID IS NULL
ORDER BY NAME;

-- 4. Flights of the last days of June that nobody has booked yet
SELECT F.ID, F.AIRLINE, F.NUMBER, F.DAY
FROM FLIGHTS F LEFT JOIN BOOKINGS B ON B.FLIGHT = F.ID
WHERE F.DAY >= DATE '2024-06-30' - INTERVAL '7' DAY AND B.ID IS NULL
ORDER BY DAY, ID;

-- 5. Each airline with the airports of its country, if there are any
SELECT A.NAME, A.COUNTRY, COALESCE(P.CODE, '–') AS AIRPORT
FROM AIRLINES A LEFT JOIN AIRPORTS P ON P.COUNTRY = A.COUNTRY
ORDER BY NAME, AIRPORT;

-- 6. Gold and silver members with their bookings in business: the cabin stands in ON
SELECT P.NAME, P.TIER, COUNT(B.ID) AS BOOKINGS, COALESCE(SUM(B.FARE), 0) AS FARES
FROM PASSENGERS P LEFT JOIN BOOKINGS B ON B.PASSENGER = P.ID AND B.CABIN = 'business'
WHERE P.TIER IN ('gold', 'silver')
GROUP BY P.ID, P.NAME, P.TIER
ORDER BY FARES DESC, NAME;

-- 7. Airlines with their flights that were two hours late
SELECT A.CODE, A.NAME, F.DAY, F.DELAY
FROM AIRLINES A LEFT JOIN FLIGHTS F ON F.AIRLINE = A.CODE AND F.DELAY >= 120
WHERE A.FLEET > 20
ORDER BY CODE, DAY, DELAY;

-- 8. Flights of May to Japan or Brazil, with who is on them
SELECT F.ID, F.DAY, D.CITY, P.NAME
FROM FLIGHTS F
JOIN AIRPORTS D ON D.CODE = F.DESTINATION
LEFT JOIN BOOKINGS B ON B.FLIGHT = F.ID
LEFT JOIN PASSENGERS P ON P.ID = B.PASSENGER
WHERE D.COUNTRY IN ('JP', 'BR') AND EXTRACT(MONTH FROM F.DAY) = 5
ORDER BY ID, NAME;

-- 9. Nations of passengers by whether an airport of theirs is on the list
SELECT P.NATION, COUNT(A.CODE) AS MATCHES, COUNT(*) AS ALL_ROWS
FROM PASSENGERS P LEFT JOIN AIRPORTS A ON A.COUNTRY = P.NATION
GROUP BY P.NATION;

-- 10. What alliances earn in each cabin, airlines without bookings too
SELECT A.ALLIANCE, B.CABIN, COUNT(B.ID) AS BOOKINGS, SUM(B.FARE) AS FARES
FROM AIRLINES A LEFT JOIN FLIGHTS F ON F.AIRLINE = A.CODE LEFT JOIN BOOKINGS B ON B.FLIGHT = F.ID
GROUP BY A.ALLIANCE, B.CABIN
ORDER BY ALLIANCE, CABIN;
