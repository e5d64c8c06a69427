with Ada.Finalization; with Ada.Text_IO; with Ada.Unchecked_Deallocation;
procedure Main is
   Odd : exception;
   type Cell is record Value : Integer := 7; end record;
   type Link is access Cell;
   type Holder is new Ada.Finalization.Limited_Controlled with record Held : Link; Kept : Boolean := True; end record;
   overriding procedure Initialize (Object : in out Holder);
   procedure Free is new Ada.Unchecked_Deallocation (Cell, Link);
   overriding procedure Initialize (Object : in out Holder) is
      Tried : Link;
   begin
      Tried := new Cell'(Value => 7);
      if Tried.Value mod 2 = 1 then
         raise Odd;
      end if;
      Object.Held := Tried;
   exception
      when Odd =>
         Free (Tried);
         Object.Kept := False;
         Ada.Text_IO.Put_Line ("freed at once");
      when others => null;
   end Initialize;
   H : Holder;
begin
   if H.Held = null and not H.Kept then
      Ada.Text_IO.Put_Line ("nothing is held");
   end if;
end Main;
