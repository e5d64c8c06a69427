with Ada.Finalization; with Ada.Text_IO; with Ada.Unchecked_Deallocation;
procedure Main is
type First is new Ada.Finalization.Limited_Controlled with record Number : Integer := 1; end record;
procedure Initialize (Object : in out First);
procedure Finalize (Object : in out First);
type Second is new Ada.Finalization.Limited_Controlled with record Number : Integer := 2147483647; end record;
procedure Initialize (Object : in out Second);
procedure Finalize (Object : in out Second);
type Pair is record Left : First; Right : Second; end record;
type Link is access Pair;
procedure Free is new Ada.Unchecked_Deallocation (Pair, Link);
procedure Initialize (Object : in out First) is begin Ada.Text_IO.Put_Line ("initialize the first"); end Initialize;
procedure Finalize (Object : in out First) is begin Ada.Text_IO.Put_Line ("finalize the first"); end Finalize;
procedure Initialize (Object : in out Second) is begin
Ada.Text_IO.Put_Line ("initialize the second");
Object.Number := Object.Number + 1;
end Initialize;
procedure Finalize (Object : in out Second) is begin Ada.Text_IO.Put_Line ("finalize the second"); end Finalize;
X : Link;
begin
begin
X := new Pair;
Free (X);
exception
when Constraint_Error => Ada.Text_IO.Put_Line ("no object");
end;
declare
P : Pair;
begin
Ada.Text_IO.Put_Line ("there is a record");
exception
when Constraint_Error => Ada.Text_IO.Put_Line ("handled inside");
end;
exception
when Constraint_Error => Ada.Text_IO.Put_Line ("no record");
end Main;
