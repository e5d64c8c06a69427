with Ada.Finalization; with Ada.Text_IO;
procedure Main is
   type Tally is new Ada.Finalization.Controlled with record Count : Integer := 3; end record;
   overriding procedure Finalize (Object : in out Tally);
   type Board is new Ada.Finalization.Limited_Controlled with record Own : Tally; Total : Integer := 0; end record;
   overriding procedure Initialize (Object : in out Board);
   overriding procedure Finalize (Object : in out Tally) is
   begin
      Ada.Text_IO.Put_Line (Integer'Image (Object.Count));
   end Finalize;
   overriding procedure Initialize (Object : in out Board) is
      Twin : Tally := Object.Own;
   begin
      Twin.Count := Twin.Count * 2;
      Object.Total := Twin.Count + Object.Own.Count;
   exception
      when Constraint_Error => null;
   end Initialize;
   B : Board;
begin
   Ada.Text_IO.Put_Line (Integer'Image (B.Total));
end Main;
