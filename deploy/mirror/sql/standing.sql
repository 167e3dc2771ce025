-- Who may read, at which moment: rules 1 to 3 of docs/POLICY.md, and the numbers of denials.

-- Decides whether a party in a role may read at a moment (now if NULL). `denial` is 0, or the rule 1 to 3 that denies; `fault` is 0 or 135;
-- `moment` is the moment to read at, and NULL unless the request is allowed. A mirror that was stopped allows nothing: `stamp` is then
-- NULL.
CREATE FUNCTION policy.standing(party bigint, role text, at bigint, OUT denial int, OUT fault int, OUT moment bigint, OUT stamp bigint)
LANGUAGE plpgsql STABLE SECURITY DEFINER SET search_path = pg_catalog, pg_temp AS $$
#variable_conflict use_variable
DECLARE now bigint; exists_now boolean; holds_now boolean; BEGIN
  denial := 0; fault := 0;
  SELECT s.stamp, EXISTS (SELECT 1 FROM reg.party x WHERE x.number = party AND x.until = 4102444800000),
         EXISTS (SELECT 1 FROM reg.role x WHERE x.party = standing.party AND x.role = standing.role AND x.until = 4102444800000)
    INTO stamp, exists_now, holds_now FROM reg.state s WHERE s.halted IS NULL;
  IF stamp IS NULL THEN RETURN; END IF;
  IF at IS NOT NULL THEN
    now := greatest(floor(extract(epoch FROM clock_timestamp()) * 1000)::bigint, stamp);
    IF at > now THEN fault := 135; RETURN; END IF;
  END IF;
  IF exists_now IS NOT TRUE THEN denial := 1; RETURN; END IF;
  IF holds_now IS NOT TRUE THEN denial := 2; RETURN; END IF;
  IF at < now AND role IN ({{present}}) THEN denial := 3; RETURN; END IF;
  moment := coalesce(at, stamp);
END $$;

-- The circle of a citizen: itself and its principals at a moment.
CREATE FUNCTION policy.circle(party bigint, moment bigint) RETURNS bigint[]
LANGUAGE sql STABLE SECURITY DEFINER SET search_path = pg_catalog, pg_temp AS $$
  SELECT array_append(ARRAY(SELECT principal FROM reg.mandate WHERE agent = $1 AND since <= $2 AND $2 < until), $1) $$;

-- The number of the rule that denies the view of an object that is not visible, after rules 1 to 3.
CREATE FUNCTION policy.denial(party bigint, role text, moment bigint, kind text, number bigint) RETURNS int
LANGUAGE plpgsql STABLE SECURITY DEFINER SET search_path = pg_catalog, pg_temp AS $$ BEGIN
  IF $4 = 'party' AND $5 = $1 THEN RETURN 27; END IF;
  IF $4 = 'unit' AND $2 = 'conveyancer' AND EXISTS (
    SELECT 1 FROM reg.names JOIN reg.mutation ON mutation.number = names.mutation
    WHERE names.unit = $5 AND mutation.state = 'lodged' AND names.since <= $3 AND $3 < names.until
      AND mutation.since <= $3 AND $3 < mutation.until AND mutation.lodger = $1) THEN RETURN 27; END IF;
  RETURN CASE $2 || ' ' || $4
{{denials}}
  END;
END $$;

-- The caller and the moment of a statement on the views: the party of the login, and `SET land.moment` if there is one. session_user cannot
-- be changed by a client. No moment if the request is not allowed: then no row is visible.
CREATE FUNCTION policy.ask(role text, OUT p bigint, OUT t bigint)
LANGUAGE plpgsql STABLE SECURITY DEFINER SET search_path = pg_catalog, pg_temp AS $$ BEGIN
  SELECT l.party INTO p FROM access.login l WHERE l.login = session_user;
  SELECT s.moment INTO t FROM policy.standing(coalesce(p, 0), role, nullif(current_setting('land.moment', true), '')::bigint) s;
END $$;

-- A pattern for ILIKE that matches a text as a part.
CREATE FUNCTION policy.part(word text) RETURNS text LANGUAGE sql IMMUTABLE STRICT AS $$
  SELECT '%' || replace(replace(replace(word, '\', '\\'), '%', '\%'), '_', '\_') || '%' $$;
-- A field of CSV (docs/EXTRACTS.md): quoted if it has a comma, a quotation mark or a line end.
CREATE FUNCTION policy.csv(value text) RETURNS text LANGUAGE sql IMMUTABLE AS $$
  SELECT CASE WHEN value ~ '[",\n\r]' THEN '"' || replace(value, '"', '""') || '"' ELSE coalesce(value, '') END $$;

-- ---- objects as JSON, as the register shows them

CREATE FUNCTION policy.party_json(x reg.party, t bigint) RETURNS jsonb LANGUAGE sql STABLE AS $$
  SELECT jsonb_build_object('kind', x.kind, 'name', x.name, 'number', x.number,
    'roles', coalesce((
      SELECT jsonb_agg(r.role ORDER BY array_position(ARRAY[{{roles}}], r.role))
      FROM reg.role r WHERE r.party = x.number AND r.since <= t AND t < r.until), '[]'),
    'members', coalesce((
      SELECT jsonb_agg(jsonb_build_object('party', m.party, 'share', m.num || '/' || m.den) ORDER BY m.party)
      FROM reg.member m WHERE m.grp = x.number AND m.since <= t AND t < m.until), '[]')) $$;
CREATE FUNCTION policy.unit_json(x reg.unit) RETURNS jsonb LANGUAGE sql IMMUTABLE AS $$
  SELECT jsonb_build_object('checked', x.checked = 1, 'name', x.name, 'number', x.number) $$;
CREATE FUNCTION policy.parcel_json(x reg.parcel) RETURNS jsonb LANGUAGE sql IMMUTABLE AS $$
  SELECT jsonb_build_object('doubled', x.doubled, 'label', x.label, 'number', x.number, 'outline', x.outline, 'source', x.source, 'unit',
    x.unit) $$;
CREATE FUNCTION policy.rrr_json(x reg.rrr) RETURNS jsonb LANGUAGE sql IMMUTABLE AS $$
  SELECT jsonb_build_object('class', x.class, 'number', x.number, 'party', x.party, 'source', x.source, 'unit', x.unit) ||
    CASE WHEN x.class = 'mortgage' THEN jsonb_build_object('amount', x.amount, 'currency', x.currency, 'rank', x.place)
         WHEN x.words IS NOT NULL THEN jsonb_build_object('words', x.words)
         ELSE jsonb_build_object('share', x.num || '/' || x.den) END $$;
CREATE FUNCTION policy.source_json(x reg.source) RETURNS jsonb LANGUAGE sql IMMUTABLE AS $$
  SELECT jsonb_build_object('kind', x.kind, 'number', x.number, 'title', x.title) $$;
CREATE FUNCTION policy.mutation_json(x reg.mutation) RETURNS jsonb LANGUAGE sql IMMUTABLE AS $$
  SELECT jsonb_build_object('act', x.act, 'content', x.content::jsonb, 'lodged', x.lodged, 'lodger', x.lodger, 'number', x.number,
    'reference', x.reference, 'source', x.source, 'state', x.state) $$;
-- A parcel as a feature of GeoJSON, with coordinates in metres.
CREATE FUNCTION policy.feature(x reg.parcel) RETURNS jsonb LANGUAGE sql IMMUTABLE AS $$
  SELECT jsonb_build_object('type', 'Feature', 'id', x.number, 'properties', jsonb_build_object('label', x.label, 'unit', x.unit,
    'square_metres', round(x.doubled / 2000000, 7)), 'geometry', public.ST_AsGeoJSON(x.geom, 3, 0)::jsonb) $$;
CREATE FUNCTION policy.collection(features jsonb) RETURNS text LANGUAGE sql IMMUTABLE AS $$
  SELECT jsonb_build_object('type', 'FeatureCollection', 'features', coalesce(features, '[]'))::text $$;

REVOKE ALL ON ALL FUNCTIONS IN SCHEMA policy FROM PUBLIC;
GRANT USAGE ON SCHEMA policy TO land_reader;
GRANT EXECUTE ON FUNCTION policy.ask TO land_reader;
