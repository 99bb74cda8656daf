structure Side = struct val n = Length.n end
