(* What is wrong with a program, and where. *)
signature REPORT =
sig
  datatype stage = Lexing | Parsing | Typing | Running

  type report = {stage : stage, place : Place.place, message : string}

  exception Error of report

  (* Raises `Error`. *)
  val fail : stage -> Place.place -> string -> 'a

  (* The report with the line of the program that it is about. *)
  val show : string -> report -> string
end

structure Report :> REPORT =
struct
  datatype stage = Lexing | Parsing | Typing | Running

  type report = {stage : stage, place : Place.place, message : string}

  exception Error of report

  fun fail stage place message = raise Error {stage = stage, place = place, message = message}

  fun stageName Lexing = "no lexeme"
    | stageName Parsing = "no program"
    | stageName Typing = "no type"
    | stageName Running = "no value"

  fun nth (line :: _, 1) = line
    | nth (_ :: lines, n) = nth (lines, n - 1)
    | nth ([], _) = ""

  fun show program {stage, place as {line, column}, message} =
    concat
      [ Place.toString place, ": ", stageName stage, ": ", message, "\n"
      , "  ", nth (Strings.lines program, line), "\n"
      , Strings.spaces (column + 1), "^\n"
      ]
end
