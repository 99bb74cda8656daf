structure Main = struct val n = Two.n end
