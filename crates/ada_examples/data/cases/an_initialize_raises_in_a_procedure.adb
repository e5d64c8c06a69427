--  Where a declaration of a procedure raises, what was declared before goes, newest first, and the exception comes to the call.
with Ada.Finalization; with Ada.Text_IO;
procedure Main is
   type Small is new Ada.Finalization.Controlled with record Count : Integer := 1; end record;
   overriding procedure Initialize (Object : in out Small);
   overriding procedure Finalize (Object : in out Small);
   type Great is new Ada.Finalization.Controlled with record Part : Small; Count : Integer := 2147483647; end record;
   overriding procedure Initialize (Object : in out Great);
   overriding procedure Finalize (Object : in out Great);
   procedure Initialize (Object : in out Small) is
   begin Object.Count := Object.Count + 1; Ada.Text_IO.Put_Line ("small begins"); end Initialize;
   procedure Finalize (Object : in out Small) is
   begin Ada.Text_IO.Put_Line ("small ends"); end Finalize;
   procedure Initialize (Object : in out Great) is
   begin Object.Count := Object.Count + 1; Ada.Text_IO.Put_Line ("great begins"); end Initialize;
   procedure Finalize (Object : in out Great) is
   begin Ada.Text_IO.Put_Line ("great ends"); end Finalize;
   procedure Work is
      First : Small;
      Second : Great;
      Third : Small;
   begin Ada.Text_IO.Put_Line ("not reached"); end Work;
begin
   Work;
exception
   when Constraint_Error => Ada.Text_IO.Put_Line ("constraint error");
end Main;
