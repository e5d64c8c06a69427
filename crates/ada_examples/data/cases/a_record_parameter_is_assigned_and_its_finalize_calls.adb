with Ada.Finalization; with Ada.Text_IO;
procedure Main is
   type Account is new Ada.Finalization.Controlled with record Number : Integer := 0; end record;
   overriding procedure Initialize (Object : in out Account);
   overriding procedure Finalize (Object : in out Account);
   procedure Next (Number : in out Integer) is
   begin
      Number := 1;
   end Next;
   procedure Close (Number : Integer) is
   begin
      Ada.Text_IO.Put_Line (Integer'Image (Number));
   end Close;
   overriding procedure Initialize (Object : in out Account) is
   begin
      Next (Object.Number);
   end Initialize;
   overriding procedure Finalize (Object : in out Account) is
   begin
      Close (Object.Number);
   end Finalize;
   procedure Exchange (Left : in out Account; Right : in out Account) is
      Kept : Account := Left;
   begin
      Left := Right;
      Right := Kept;
      Ada.Text_IO.Put_Line ("exchanged");
   end Exchange;
   A : Account;
   B : Account;
begin
   B.Number := 2;
   Exchange (A, B);
   Ada.Text_IO.Put_Line (Integer'Image (A.Number));
   Ada.Text_IO.Put_Line (Integer'Image (B.Number));
end Main;
