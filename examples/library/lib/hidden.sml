structure Hidden = struct val n = One.n end
