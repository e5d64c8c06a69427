with Ada.Finalization; with Ada.Text_IO;
procedure Main is
   type Tally is new Ada.Finalization.Controlled with record Count : Integer := 1; end record;
   type Link is access Tally;
   type Board is new Ada.Finalization.Limited_Controlled with record Sum : Integer := 0; end record;
   overriding procedure Initialize (Object : in out Board);
   overriding procedure Initialize (Object : in out Board) is
      P : Link;
   begin
      declare
         Own : Tally := P.all;
      begin
         Object.Sum := Own.Count;
      end;
   exception
      when Constraint_Error => Object.Sum := 7;
   end Initialize;
   B : Board;
begin
   Ada.Text_IO.Put_Line (Integer'Image (B.Sum));
end Main;
