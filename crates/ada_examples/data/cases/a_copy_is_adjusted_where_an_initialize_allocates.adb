with Ada.Finalization; with Ada.Text_IO; with Ada.Unchecked_Deallocation;
procedure Main is
   type Cell is record Value : Integer := 5; end record;
   type Link is access Cell;
   type Sample is new Ada.Finalization.Controlled with record Value : Integer := 0; Copies : Integer := 0; end record;
   overriding procedure Initialize (Object : in out Sample);
   overriding procedure Adjust (Object : in out Sample);
   overriding procedure Finalize (Object : in out Sample);
   procedure Free is new Ada.Unchecked_Deallocation (Cell, Link);
   overriding procedure Initialize (Object : in out Sample) is
      Made : Link;
   begin
      Made := new Cell;
      Object.Value := Made.Value;
      Free (Made);
   end Initialize;
   overriding procedure Adjust (Object : in out Sample) is
   begin
      Object.Copies := Object.Copies + 1;
   exception
      when Constraint_Error => Object.Copies := 0;
   end Adjust;
   overriding procedure Finalize (Object : in out Sample) is
   begin
      Ada.Text_IO.Put_Line (Integer'Image (Object.Copies));
   end Finalize;
   A : Sample;
begin
   declare
      B : Sample := A;
      C : Sample;
   begin
      C := B;
      Ada.Text_IO.Put_Line (Integer'Image (C.Value));
   end;
end Main;
