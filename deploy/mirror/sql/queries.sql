-- The queries of the role {{role}}, for gate.answer. `me` is the caller, `t` the moment, `circle` the caller's circle at it; rules 1 to 3
-- allowed the request. docs/MIRROR.md defines each query. A client's words and numbers are parameters, never SQL. force_custom_plan plans
-- with the values: a plan without them takes every party for one with few entries, and a bank then waits for minutes.

CREATE FUNCTION {{schema}}.numbers(kind text, me bigint, t bigint, circle bigint[]) RETURNS bigint[] LANGUAGE plpgsql STABLE {{plan}} AS $$
#variable_conflict use_column
BEGIN CASE kind
  WHEN 'party' THEN RETURN ARRAY(SELECT DISTINCT s.n FROM ({{numbers party}}) AS s(n) ORDER BY 1);
  WHEN 'unit' THEN RETURN ARRAY(SELECT DISTINCT s.n FROM ({{numbers unit}}) AS s(n) ORDER BY 1);
  WHEN 'parcel' THEN RETURN ARRAY(SELECT DISTINCT s.n FROM ({{numbers parcel}}) AS s(n) ORDER BY 1);
  WHEN 'rrr' THEN RETURN ARRAY(SELECT DISTINCT s.n FROM ({{numbers rrr}}) AS s(n) ORDER BY 1);
  WHEN 'source' THEN RETURN ARRAY(SELECT DISTINCT s.n FROM ({{numbers source}}) AS s(n) ORDER BY 1);
  WHEN 'mutation' THEN RETURN ARRAY(SELECT DISTINCT s.n FROM ({{numbers mutation}}) AS s(n) ORDER BY 1);
END CASE; END $$;

-- An object, or NULL if it is not visible.
CREATE FUNCTION {{schema}}.object(what_kind text, wanted bigint, me bigint, t bigint, circle bigint[])
  RETURNS jsonb LANGUAGE plpgsql STABLE {{plan}} AS $$
#variable_conflict use_column
BEGIN CASE what_kind
  WHEN 'party' THEN RETURN (SELECT policy.party_json(x, t) FROM reg.party x WHERE x.number = wanted AND x.since <= t AND t < x.until
    {{visible party x.number}});
  WHEN 'unit' THEN RETURN (SELECT policy.unit_json(x) FROM reg.unit x WHERE x.number = wanted AND x.since <= t AND t < x.until
    {{visible unit x.number}});
  WHEN 'parcel' THEN RETURN (SELECT policy.parcel_json(x) FROM reg.parcel x WHERE x.number = wanted AND x.since <= t AND t < x.until
    {{visible parcel x.number}});
  WHEN 'rrr' THEN RETURN (SELECT policy.rrr_json(x) FROM reg.rrr x WHERE x.number = wanted AND x.since <= t AND t < x.until
    {{visible rrr x.number}});
  WHEN 'source' THEN RETURN (SELECT policy.source_json(x) FROM reg.source x WHERE x.number = wanted AND x.since <= t AND t < x.until
    {{visible source x.number}});
  WHEN 'mutation' THEN RETURN (SELECT policy.mutation_json(x) FROM reg.mutation x WHERE x.number = wanted AND x.since <= t AND t < x.until
    {{visible mutation x.number}});
END CASE; END $$;

-- Objects with their contents: filtered by equality, sorted by number or name, one page.
CREATE FUNCTION {{schema}}.page(what_kind text, args jsonb, me bigint, t bigint, circle bigint[])
  RETURNS jsonb LANGUAGE plpgsql STABLE SET plan_cache_mode = force_custom_plan AS $$
#variable_conflict use_column
DECLARE
  most int := least(coalesce((args->>'limit')::int, 100), 1000); skip int := coalesce((args->>'skip')::int, 0);
  sort text := coalesce(args->>'sort', 'number'); found jsonb[];
  a_kind text := args->>'kind'; a_unit bigint := args->>'unit'; a_party bigint := args->>'party'; a_class text := args->>'class';
  a_state text := args->>'state'; a_act text := args->>'act'; a_lodger bigint := args->>'lodger'; a_checked int := args->>'checked';
BEGIN CASE what_kind
  WHEN 'party' THEN found := ARRAY(SELECT policy.party_json(x, t) FROM reg.party x WHERE x.since <= t AND t < x.until
    {{visible party x.number}}
    AND (a_kind IS NULL OR x.kind = a_kind)
    ORDER BY CASE sort WHEN 'name' THEN x.name END, CASE sort WHEN '-name' THEN x.name END DESC,
      CASE sort WHEN '-number' THEN x.number END DESC,
      x.number LIMIT most + 1 OFFSET skip);
  WHEN 'unit' THEN found := ARRAY(SELECT policy.unit_json(x) FROM reg.unit x WHERE x.since <= t AND t < x.until
    {{visible unit x.number}}
    AND (a_checked IS NULL OR x.checked = a_checked)
    ORDER BY CASE sort WHEN 'name' THEN x.name END, CASE sort WHEN '-name' THEN x.name END DESC,
      CASE sort WHEN '-number' THEN x.number END DESC,
      x.number LIMIT most + 1 OFFSET skip);
  WHEN 'parcel' THEN found := ARRAY(SELECT policy.parcel_json(x) FROM reg.parcel x WHERE x.since <= t AND t < x.until
    {{visible parcel x.number}}
    AND (a_unit IS NULL OR x.unit = a_unit)
    ORDER BY CASE sort WHEN 'name' THEN x.label END, CASE sort WHEN '-name' THEN x.label END DESC,
      CASE sort WHEN '-number' THEN x.number END DESC,
      x.number LIMIT most + 1 OFFSET skip);
  WHEN 'rrr' THEN found := ARRAY(SELECT policy.rrr_json(x) FROM reg.rrr x WHERE x.since <= t AND t < x.until
    {{visible rrr x.number}}
    AND (a_unit IS NULL OR x.unit = a_unit) AND (a_party IS NULL OR x.party = a_party) AND (a_class IS NULL OR x.class = a_class)
    ORDER BY CASE sort WHEN '-number' THEN x.number END DESC, x.number LIMIT most + 1 OFFSET skip);
  WHEN 'source' THEN found := ARRAY(SELECT policy.source_json(x) FROM reg.source x WHERE x.since <= t AND t < x.until
    {{visible source x.number}}
    AND (a_kind IS NULL OR x.kind = a_kind)
    ORDER BY CASE sort WHEN 'name' THEN x.title END, CASE sort WHEN '-name' THEN x.title END DESC,
      CASE sort WHEN '-number' THEN x.number END DESC,
      x.number LIMIT most + 1 OFFSET skip);
  WHEN 'mutation' THEN found := ARRAY(SELECT policy.mutation_json(x) FROM reg.mutation x WHERE x.since <= t AND t < x.until
    {{visible mutation x.number}}
    AND (a_state IS NULL OR x.state = a_state) AND (a_act IS NULL OR x.act = a_act) AND (a_lodger IS NULL OR x.lodger = a_lodger)
    AND (a_unit IS NULL OR x.number IN (SELECT k.mutation FROM reg.names k WHERE k.unit = a_unit AND k.since <= t AND t < k.until))
    ORDER BY CASE sort WHEN '-number' THEN x.number END DESC, x.number LIMIT most + 1 OFFSET skip);
END CASE;
RETURN jsonb_build_object('objects', to_jsonb(found[1:most]), 'more', cardinality(found) > most); END $$;

-- Parties and units by a part of their name, parcels by a part of their label; case does not count.
CREATE FUNCTION {{schema}}.find_party(word text, most int, me bigint, t bigint, circle bigint[])
  RETURNS jsonb LANGUAGE plpgsql STABLE SET plan_cache_mode = force_custom_plan AS $$
#variable_conflict use_column
BEGIN RETURN (SELECT coalesce(jsonb_agg(to_jsonb(f)), '[]') FROM (
  SELECT x.number, x.name, x.kind FROM reg.party x WHERE x.name ILIKE policy.part(word) AND x.since <= t AND t < x.until
    {{visible party x.number}}
  ORDER BY x.name, x.number LIMIT most) f); END $$;
CREATE FUNCTION {{schema}}.find_unit(word text, most int, me bigint, t bigint, circle bigint[])
  RETURNS jsonb LANGUAGE plpgsql STABLE SET plan_cache_mode = force_custom_plan AS $$
#variable_conflict use_column
BEGIN RETURN (SELECT coalesce(jsonb_agg(to_jsonb(f)), '[]') FROM (
  SELECT x.number, x.name FROM reg.unit x WHERE x.name ILIKE policy.part(word) AND x.since <= t AND t < x.until
    {{visible unit x.number}}
  ORDER BY x.name, x.number LIMIT most) f); END $$;
CREATE FUNCTION {{schema}}.find_parcel(word text, most int, me bigint, t bigint, circle bigint[])
  RETURNS jsonb LANGUAGE plpgsql STABLE SET plan_cache_mode = force_custom_plan AS $$
#variable_conflict use_column
BEGIN RETURN (SELECT coalesce(jsonb_agg(to_jsonb(f)), '[]') FROM (
  SELECT x.number, x.unit, x.label FROM reg.parcel x WHERE x.label ILIKE policy.part(word) AND x.since <= t AND t < x.until
    {{visible parcel x.number}}
  ORDER BY x.label, x.number LIMIT most) f); END $$;

-- Parcels whose ground has a point in common with a shape, as GeoJSON.
CREATE FUNCTION {{schema}}.parcels_in(shape public.geometry, most int, me bigint, t bigint, circle bigint[])
  RETURNS text LANGUAGE plpgsql STABLE SET plan_cache_mode = force_custom_plan AS $$
#variable_conflict use_column
BEGIN RETURN policy.collection((SELECT jsonb_agg(f.feature) FROM (
  SELECT policy.feature(x) AS feature FROM reg.parcel x WHERE x.geom OPERATOR(public.&&) shape AND public.ST_Intersects(x.geom, shape)
    AND x.since <= t AND t < x.until
    {{visible parcel x.number}}
  ORDER BY x.number LIMIT most) f)); END $$;

-- All visible parcels, as GeoJSON.
CREATE FUNCTION {{schema}}.all_parcels(me bigint, t bigint, circle bigint[]) RETURNS text LANGUAGE plpgsql STABLE {{plan}} AS $$
#variable_conflict use_column
BEGIN RETURN policy.collection((SELECT jsonb_agg(policy.feature(x) ORDER BY x.number) FROM reg.parcel x WHERE x.since <= t AND t < x.until
    {{visible parcel x.number}})); END $$;

-- The changes of a unit, newest first. A row that ends is shown if the caller sees it and the unit one millisecond before, a row that
-- begins if the caller sees it and the unit then.
CREATE FUNCTION {{schema}}.history(wanted bigint, most int, me bigint, last_moment bigint)
  RETURNS jsonb LANGUAGE plpgsql STABLE {{plan}} AS $$
#variable_conflict use_column
DECLARE stamp bigint; t bigint; circle bigint[]; ended jsonb; began jsonb; decided jsonb; found jsonb := '[]'; BEGIN
  IF NOT {{has past}} THEN RETURN found; END IF;
  FOR stamp IN
    SELECT DISTINCT s FROM (
      SELECT since AS s FROM reg.unit WHERE number = wanted UNION SELECT until FROM reg.unit WHERE number = wanted
      UNION SELECT since FROM reg.parcel WHERE unit = wanted UNION SELECT until FROM reg.parcel WHERE unit = wanted
      UNION SELECT since FROM reg.rrr WHERE unit = wanted UNION SELECT until FROM reg.rrr WHERE unit = wanted
      UNION SELECT v.since FROM reg.names k JOIN reg.mutation v ON v.number = k.mutation WHERE k.unit = wanted) q
    WHERE s <= last_moment ORDER BY s DESC
  LOOP
    t := stamp - 1; circle := policy.circle(me, t); ended := NULL; began := NULL;
    IF EXISTS (SELECT 1 FROM reg.unit x WHERE x.number = wanted AND x.since <= t AND t < x.until
      {{visible unit x.number}}) THEN
      ended := (SELECT jsonb_agg(e) FROM (
        SELECT jsonb_build_object('unit', policy.unit_json(x)) AS e FROM reg.unit x WHERE x.number = wanted AND x.until = stamp
        UNION ALL SELECT jsonb_build_object('parcel', policy.parcel_json(x)) FROM reg.parcel x WHERE x.unit = wanted AND x.until = stamp
          {{visible parcel x.number}}
        UNION ALL SELECT jsonb_build_object('rrr', policy.rrr_json(x)) FROM reg.rrr x WHERE x.unit = wanted AND x.until = stamp
          {{visible rrr x.number}}) q);
    END IF;
    t := stamp; circle := policy.circle(me, t);
    IF EXISTS (SELECT 1 FROM reg.unit x WHERE x.number = wanted AND x.since <= t AND t < x.until
      {{visible unit x.number}}) THEN
      began := (SELECT jsonb_agg(e) FROM (
        SELECT jsonb_build_object('unit', policy.unit_json(x)) AS e FROM reg.unit x WHERE x.number = wanted AND x.since = stamp
        UNION ALL SELECT jsonb_build_object('parcel', policy.parcel_json(x)) FROM reg.parcel x WHERE x.unit = wanted AND x.since = stamp
          {{visible parcel x.number}}
        UNION ALL SELECT jsonb_build_object('rrr', policy.rrr_json(x)) FROM reg.rrr x WHERE x.unit = wanted AND x.since = stamp
          {{visible rrr x.number}}) q);
    END IF;
    decided := (SELECT jsonb_agg(jsonb_build_object('number', x.number, 'act', x.act, 'state', x.state, 'lodger',
      x.lodger) ORDER BY x.number)
      FROM reg.mutation x WHERE x.since = stamp AND x.number IN (SELECT k.mutation FROM reg.names k WHERE k.unit = wanted)
      {{visible mutation x.number}});
    IF ended IS NOT NULL OR began IS NOT NULL OR decided IS NOT NULL THEN
      found := found || jsonb_build_object('stamp', stamp, 'ended', coalesce(ended, '[]'), 'began', coalesce(began, '[]'),
        'mutations', coalesce(decided, '[]'));
      EXIT WHEN jsonb_array_length(found) >= most;
    END IF;
  END LOOP;
  RETURN found;
END $$;

-- The undecided mutations that refer to a unit, or all of them.
CREATE FUNCTION {{schema}}.undecided(a_unit bigint, most int, me bigint, t bigint, circle bigint[])
  RETURNS jsonb LANGUAGE plpgsql STABLE SET plan_cache_mode = force_custom_plan AS $$
#variable_conflict use_column
BEGIN RETURN (SELECT coalesce(jsonb_agg(f.it), '[]') FROM (
  SELECT policy.mutation_json(x) AS it FROM reg.mutation x WHERE x.state = 'lodged' AND x.since <= t AND t < x.until
    AND (a_unit IS NULL OR x.number IN (SELECT k.mutation FROM reg.names k WHERE k.unit = a_unit AND k.since <= t AND t < k.until))
    {{visible mutation x.number}}
  ORDER BY x.number LIMIT most) f); END $$;

-- Mortgages: a bank's own, else those that the caller sees; totals by currency. A subdivision copies a mortgage to each new unit with the
-- same creditor and document: the copies are one loan.
CREATE FUNCTION {{schema}}.mortgages(most int, me bigint, t bigint, circle bigint[])
  RETURNS jsonb LANGUAGE plpgsql STABLE SET plan_cache_mode = force_custom_plan AS $$
#variable_conflict use_column
DECLARE entries jsonb; totals jsonb; BEGIN
  WITH seen AS MATERIALIZED (
    SELECT x.number, x.since, x.party, x.source, x.amount, x.currency FROM reg.rrr x
    WHERE x.class = 'mortgage' AND x.since <= t AND t < x.until AND ('{{role}}' <> 'bank' OR x.party = me)
      {{visible rrr x.number}}),
  loan AS (SELECT DISTINCT s.party, s.source, s.amount, s.currency FROM seen s),
  total AS (SELECT l.currency, sum(l.amount) AS amount, count(*) AS loans FROM loan l GROUP BY l.currency)
  SELECT (SELECT jsonb_agg(policy.rrr_json(x) ORDER BY x.number) FROM (SELECT s.number, s.since FROM seen s ORDER BY s.number LIMIT most) s
      JOIN reg.rrr x ON x.number = s.number AND x.since = s.since),
    (SELECT jsonb_agg(to_jsonb(g) ORDER BY g.currency) FROM total g)
    INTO entries, totals;
  RETURN jsonb_build_object('mortgages', coalesce(entries, '[]'), 'totals', coalesce(totals, '[]'));
END $$;

-- The area that each party owns by its shares, among the ownerships that the caller sees; the largest first.
CREATE FUNCTION {{schema}}.area_by_holder(most int, me bigint, t bigint, circle bigint[])
  RETURNS jsonb LANGUAGE plpgsql STABLE SET plan_cache_mode = force_custom_plan AS $$
#variable_conflict use_column
BEGIN RETURN (
  WITH seen AS MATERIALIZED (SELECT DISTINCT s.n FROM ({{numbers rrr}}) AS s(n)),
  owned AS MATERIALIZED (
    SELECT x.party, x.unit, x.num, x.den FROM reg.rrr x JOIN seen ON seen.n = x.number
    WHERE x.class = 'ownership' AND x.since <= t AND t < x.until),
  ground AS MATERIALIZED (
    SELECT p.unit, sum(p.doubled) AS doubled FROM (SELECT DISTINCT unit FROM owned) u JOIN reg.parcel p ON p.unit = u.unit
    WHERE p.since <= t AND t < p.until GROUP BY p.unit),
  held AS MATERIALIZED (
    SELECT o.party, count(*) AS units, round(sum(g.doubled * o.num / o.den) / 2000000, 4) AS area FROM owned o
      JOIN ground g ON g.unit = o.unit
    GROUP BY o.party ORDER BY area DESC, o.party LIMIT most)
  SELECT coalesce(jsonb_agg(jsonb_build_object('party', h.party, 'name', x.name, 'units', h.units, 'square_metres', h.area)
      ORDER BY h.area DESC, h.party), '[]')
  FROM held h JOIN reg.party x ON x.number = h.party WHERE x.since <= t AND t < x.until
    {{visible party x.number}}); END $$;

-- An extract in CSV, byte for byte that of `land extract` (docs/EXTRACTS.md).
CREATE FUNCTION {{schema}}.csv(what_kind text, me bigint, t bigint, circle bigint[]) RETURNS text LANGUAGE plpgsql STABLE {{plan}} AS $$
#variable_conflict use_column
BEGIN CASE what_kind
  WHEN 'party' THEN RETURN E'number,name,kind\n' || coalesce((
    SELECT string_agg(concat_ws(',', x.number, policy.csv(x.name), x.kind) || E'\n', '' ORDER BY x.number)
    FROM reg.party x WHERE x.since <= t AND t < x.until AND x.number IN (SELECT s.n FROM ({{numbers party}}) AS s(n))), '');
  WHEN 'unit' THEN RETURN E'number,name,checked\n' || coalesce((
    SELECT string_agg(concat_ws(',', x.number, policy.csv(x.name), CASE x.checked WHEN 1 THEN 'yes' ELSE 'no' END) || E'\n',
      '' ORDER BY x.number)
    FROM reg.unit x WHERE x.since <= t AND t < x.until AND x.number IN (SELECT s.n FROM ({{numbers unit}}) AS s(n))), '');
  WHEN 'parcel' THEN RETURN E'number,unit,label,square_metres,outline,source\n' || coalesce((
    SELECT string_agg(concat_ws(',', x.number, x.unit, policy.csv(x.label), round(x.doubled / 2000000, 7), policy.csv(x.outline), x.source)
      || E'\n', '' ORDER BY x.number)
    FROM reg.parcel x WHERE x.since <= t AND t < x.until AND x.number IN (SELECT s.n FROM ({{numbers parcel}}) AS s(n))), '');
  WHEN 'rrr' THEN RETURN E'number,unit,party,name,class,share,amount,currency,rank,words,source\n' || coalesce((
    SELECT string_agg(concat_ws(',', x.number, x.unit, x.party, policy.csv(p.name), x.class, coalesce(x.num || '/' || x.den, ''),
      coalesce(x.amount::text, ''), coalesce(x.currency, ''), coalesce(x.place::text, ''), policy.csv(x.words), x.source) || E'\n',
        '' ORDER BY x.number)
    FROM reg.rrr x LEFT JOIN reg.party p ON p.number = x.party AND p.since <= t AND t < p.until
    WHERE x.since <= t AND t < x.until AND x.number IN (SELECT s.n FROM ({{numbers rrr}}) AS s(n))), '');
  WHEN 'source' THEN RETURN E'number,kind,title\n' || coalesce((
    SELECT string_agg(concat_ws(',', x.number, x.kind, policy.csv(x.title)) || E'\n', '' ORDER BY x.number)
    FROM reg.source x WHERE x.since <= t AND t < x.until AND x.number IN (SELECT s.n FROM ({{numbers source}}) AS s(n))), '');
  WHEN 'mutation' THEN RETURN E'number,lodger,reference,source,lodged,act,state\n' || coalesce((
    SELECT string_agg(concat_ws(',', x.number, x.lodger, policy.csv(x.reference), x.source, x.lodged, x.act, x.state) || E'\n',
      '' ORDER BY x.number)
    FROM reg.mutation x WHERE x.since <= t AND t < x.until AND x.number IN (SELECT s.n FROM ({{numbers mutation}}) AS s(n))), '');
END CASE; END $$;

-- A vector tile of parcels. The plane of the tiles is a square of access.setting, which zoom 0 covers with one tile.
CREATE FUNCTION {{schema}}.tile(z int, x int, y int, me bigint, t bigint, circle bigint[])
  RETURNS bytea LANGUAGE plpgsql STABLE {{plan}} AS $$
#variable_conflict use_column
DECLARE it access.setting := (SELECT s FROM access.setting s); side float8 := it.tile_side / 2 ^ z; west float8 := it.tile_west + x * side;
  north float8 := it.tile_north - y * side; box public.geometry := public.ST_MakeEnvelope(west, north - side, west + side, north,
    it.srid); BEGIN
  RETURN (SELECT coalesce(public.ST_AsMVT(q, 'parcels', 4096, 'geom'), '') FROM (
    SELECT r.number, r.unit, r.label, public.ST_AsMVTGeom(r.geom, box, 4096, 64, true) AS geom FROM reg.parcel r
    WHERE r.geom OPERATOR(public.&&) public.ST_Expand(box, side / 64) AND r.since <= t AND t < r.until
      {{visible parcel r.number}}
    ORDER BY r.number LIMIT 20000) q WHERE q.geom IS NOT NULL); END $$;

-- The mandates that the caller gave or holds, at the moment or before it, newest first. A name is shown if the party is visible, and an end
-- if it is not after the moment. Only for citizens.
CREATE FUNCTION {{schema}}.mandates(args jsonb, me bigint, t bigint, circle bigint[])
  RETURNS jsonb LANGUAGE plpgsql STABLE SET plan_cache_mode = force_custom_plan AS $$
#variable_conflict use_column
DECLARE
  most int := least(coalesce((args->>'limit')::int, 100), 1000); skip int := coalesce((args->>'skip')::int, 0);
  a_side text := args->>'side'; a_current int := args->>'current'; found jsonb[]; BEGIN
  found := ARRAY(SELECT jsonb_strip_nulls(jsonb_build_object('since', m.since, 'until', CASE WHEN m.until <= t THEN m.until END,
      'principal', jsonb_build_object('number', m.principal, 'name', (
        SELECT x.name FROM reg.party x WHERE x.number = m.principal AND x.since <= t AND t < x.until
          {{visible party x.number}})),
      'agent', jsonb_build_object('number', m.agent, 'name', (
        SELECT x.name FROM reg.party x WHERE x.number = m.agent AND x.since <= t AND t < x.until
          {{visible party x.number}}))))
    FROM reg.mandate m WHERE m.since <= t AND (m.principal = me OR m.agent = me)
      AND (a_side IS NULL OR a_side = 'given' AND m.principal = me OR a_side = 'held' AND m.agent = me)
      AND (a_current IS NULL OR (t < m.until) = (a_current = 1))
    ORDER BY m.since DESC, m.principal, m.agent LIMIT most + 1 OFFSET skip);
  RETURN jsonb_build_object('mandates', to_jsonb(found[1:most]), 'more', cardinality(found) > most); END $$;

CREATE FUNCTION {{schema}}.answer(me bigint, t bigint, circle bigint[], what text, args jsonb, OUT status int, OUT type text,
  OUT body bytea)
LANGUAGE plpgsql STABLE AS $$
DECLARE n bigint := args->>'number'; kind text := args->>'of'; most int := coalesce((args->>'limit')::int,
  100); found jsonb; it access.setting; BEGIN
  status := 200; type := 'application/json';
  CASE what
    WHEN 'list' THEN body := convert_to('{"numbers":[' || array_to_string({{schema}}.numbers(kind, me, t, circle), ',') || ']}',
      'UTF8'); RETURN;
    WHEN 'object' THEN
      found := {{schema}}.object(kind, n, me, t, circle);
      IF found IS NULL THEN status := 403; found := jsonb_build_object('denied', policy.denial(me, '{{role}}', t, kind, n));
      ELSE found := jsonb_build_object('object', found); END IF;
    WHEN 'page' THEN found := {{schema}}.page(kind, args, me, t, circle);
    WHEN 'find' THEN found := jsonb_build_object('found', CASE kind
      WHEN 'party' THEN {{schema}}.find_party(args->>'q', least(most, 1000), me, t, circle)
      WHEN 'unit' THEN {{schema}}.find_unit(args->>'q', least(most, 1000), me, t, circle)
      WHEN 'parcel' THEN {{schema}}.find_parcel(args->>'q', least(most, 1000), me, t, circle) END);
    WHEN 'box', 'point' THEN
      SELECT s.* INTO it FROM access.setting s;
      type := 'application/geo+json';
      body := convert_to({{schema}}.parcels_in(CASE what
        WHEN 'box' THEN public.ST_MakeEnvelope((args->'box'->>0)::float8, (args->'box'->>1)::float8, (args->'box'->>2)::float8,
          (args->'box'->>3)::float8, it.srid)
        ELSE public.ST_SetSRID(public.ST_MakePoint((args->'point'->>0)::float8, (args->'point'->>1)::float8), it.srid) END,
        least(coalesce((args->>'limit')::int, 5000), 50000), me, t, circle), 'UTF8'); RETURN;
    WHEN 'geojson' THEN type := 'application/geo+json'; body := convert_to({{schema}}.all_parcels(me, t, circle), 'UTF8'); RETURN;
    WHEN 'history' THEN found := jsonb_build_object('history', {{schema}}.history(n, least(most, 1000), me, t));
    WHEN 'undecided' THEN found := jsonb_build_object('undecided', {{schema}}.undecided(n, least(most, 1000), me, t, circle));
    WHEN 'mortgages' THEN found := {{schema}}.mortgages(least(most, 1000), me, t, circle);
    WHEN 'mandates' THEN
      IF '{{role}}' = 'citizen' THEN found := {{schema}}.mandates(args, me, t, circle);
      ELSE status := 403; found := '{"denied": 28}'; END IF;
    WHEN 'area' THEN found := jsonb_build_object('holders', {{schema}}.area_by_holder(least(most, 1000), me, t, circle));
    WHEN 'csv' THEN type := 'text/csv'; body := convert_to({{schema}}.csv(kind, me, t, circle), 'UTF8'); RETURN;
    WHEN 'tile' THEN type := 'application/vnd.mapbox-vector-tile';
      body := {{schema}}.tile((args->>'z')::int, (args->>'x')::int, (args->>'y')::int, me, t, circle); RETURN;
  END CASE;
  body := convert_to(found::text, 'UTF8');
END $$;
