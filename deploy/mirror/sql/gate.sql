-- The one function that the read gateway calls, once for each request. It trusts the gateway to name the caller. The gateway's login has no
-- other right.
CREATE SCHEMA gate;
CREATE FUNCTION gate.answer(party bigint, role text, at bigint, what text, args jsonb, OUT status int, OUT type text, OUT body bytea,
  OUT stamp bigint)
LANGUAGE plpgsql STABLE SECURITY DEFINER SET search_path = pg_catalog, public, pg_temp AS $$
#variable_conflict use_variable
DECLARE moment bigint; denial int; fault int; BEGIN
  type := 'application/json';
  SELECT s.denial, s.fault, s.moment, s.stamp INTO denial, fault, moment, stamp FROM policy.standing(party, role, at) s;
  IF stamp IS NULL THEN status := 503; body := '{"mirror":"stopped"}'; RETURN; END IF;
  IF fault > 0 THEN status := 400; body := convert_to('{"fault":' || fault || '}', 'UTF8'); RETURN; END IF;
  IF denial > 0 THEN status := 403; body := convert_to('{"denied":' || denial || '}', 'UTF8'); RETURN; END IF;
  CASE role
{{branches}}
  END CASE;
END $$;
-- The stamp of the mirror and its age in milliseconds: how long ago it was last known to be up to date. No row if it was stopped.
CREATE FUNCTION gate.state(OUT stamp bigint, OUT age bigint)
  LANGUAGE sql STABLE SECURITY DEFINER SET search_path = pg_catalog, pg_temp AS $$
  SELECT s.stamp, floor(extract(epoch FROM clock_timestamp() - s.seen) * 1000)::bigint FROM reg.state s WHERE s.halted IS NULL $$;
REVOKE ALL ON ALL FUNCTIONS IN SCHEMA gate FROM PUBLIC;
GRANT USAGE ON SCHEMA gate TO land_gateway;
GRANT EXECUTE ON FUNCTION gate.answer, gate.state TO land_gateway;
