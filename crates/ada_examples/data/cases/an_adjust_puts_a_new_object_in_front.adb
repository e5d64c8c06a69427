with Ada.Finalization; with Ada.Text_IO;
procedure Main is
   type Disc;
   type Peg is access Disc;
   type Disc is record Width : Integer := 0; Under : Peg; end record;
   type Pile is new Ada.Finalization.Controlled with record Top : Peg; end record;
   overriding procedure Adjust (Object : in out Pile);
   overriding procedure Adjust (Object : in out Pile) is
   begin
      Object.Top := new Disc;
      Object.Top := new Disc'(Width => 2, Under => Object.Top);
   exception
      when others => Object.Top := null;
   end Adjust;
   Low  : Pile;
   High : Pile;
begin
   High := Low;
   Ada.Text_IO.Put_Line (Integer'Image (High.Top.Width + High.Top.Under.Width));
end Main;
