structure Two = struct val n = Hidden.n end
