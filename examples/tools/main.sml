structure Main = struct val n = Numbers.answer end
